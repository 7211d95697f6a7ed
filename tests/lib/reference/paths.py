"""The field at fault: the path of what an octet that is refused is in, by the names of RFC 4120, appendix A.

A message is named from its tag octet on, by its kind; a field of a SEQUENCE by `.` and its name, an item of
a SEQUENCE OF by the number of items before it in brackets, each from its tag octet on. A tag octet that
may not be in a container is named by the container. An explicit tag has the path of the field or the
message that it tags, and so has what is in it. What is missing in a SEQUENCE is the first required
field that is not there, and what is missing in a tag has the path of the tag. Octets that end too early end in
the innermost item that is open, which is a container if they end between two of its items.

No field is at fault if no message is named: before the tag octet of one, and in the length of a frame. What has to be a Ticket
is named so from its tag octet on, whatever that is.
`judging` keeps the path, and `files` and `captures` have the names of the fields of files.
"""

from .grammar import MESSAGES
from .judging import Ended, Refused, judge


def path(octets, n, choices=MESSAGES):
    """The path in the message of n octets of which these are there, up to the refused one or cut; or None."""
    try:
        judge(octets, n, choices)
    except (Refused, Ended) as fault:
        return fault.path
    return None
