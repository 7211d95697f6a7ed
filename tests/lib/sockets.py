"""Input that comes in pieces, each of which is returned by one read, if that asks for as many octets."""


def pieces_of(octets, size):
    """Octets in pieces of a size. A socket keeps no rest of a piece, so each read has to ask for all of it."""
    for start in range(0, len(octets), size):
        yield octets[start : start + size]
