/* krbls: Kerberos V5 messages (RFC 4120), keytabs, credential caches and captures, judged and listed.
 *
 * What is said of a call here is the contract of the function of its name in crates/krb_c, which is proved. Each call
 * answers for every number that it can be passed, and promises nothing unless its caller keeps to this:
 *
 * - A pointer to octets and the number after it are octets that are there, initialised, and that nobody changes during
 *   the call; `text` and `room`, `said` and `said_room`, `spans` and `room` are memory that nobody else uses meanwhile. What
 *   a call writes (these, `*size`, `*said_size`, `*place`) overlaps nothing that it reads, and no other that it writes.
 * - No pointer is NULL, also where the number after it is 0.
 * - The stack has room for 64 KiB. No call is made by a signal handler.
 *
 * A call keeps nothing, so any threads may call at once. krbls_judge, krbls_front and krbls_frame allocate nothing; the
 * others use malloc, realloc and free, and free all before they return. Nothing is decrypted, and no octet of a key is
 * written. The library is for x86-64 with SSE4.2. */
#ifndef KRBLS_H
#define KRBLS_H

#include <stddef.h>
#include <stdint.h>

#define KRBLS_VERSION "1.0.0"
/* The same as one number: 65536 times the first of its numbers, 256 times the second, and the third. */
#define KRBLS_VERSION_NUMBER 0x010000

/* The arguments of all calls come in one order: the form or the listing, the profile, how many octets a message has or a
 * frame may have, what else is chosen; what is read, with its number of octets; what is written; and what is said of it. */

#ifdef __cplusplus
extern "C" {
#endif

/* Profiles, as of `krbls --strict`: the strict one refuses what RFC 4120 rules out and makers send nevertheless. Any
 * number but 0 is the strict one. */
enum krbls_profile { KRBLS_LENIENT = 0, KRBLS_STRICT = 1 };

/* Forms of listings: lines, lines with the names of numbers (`--names`), JSON (`--json`). Any number above 1 is JSON. */
enum krbls_form { KRBLS_LINES = 0, KRBLS_NAMED_LINES = 1, KRBLS_JSON = 2 };

/* What octets are listed as: what their first octets say, as `krbls FILE`, or as the command of that name. Any number above
 * 5 is by first octets. */
enum krbls_listing { KRBLS_BY_FIRST_OCTETS = 0, KRBLS_STREAM = 1, KRBLS_MESSAGE = 2, KRBLS_KEYTAB = 3, KRBLS_CCACHE = 4, KRBLS_CAPTURE = 5 };

/* What a judgement returns: that octets are a message, the reason for which they are none, or that nothing is decided
 * yet. The sections are those of X.690 (DER) unless RFC 4120 is named. */
enum krbls_answer {
    KRBLS_OK = 0,
    KRBLS_HIGH_BIT = 1,             /* the high bit of a frame's length is set (RFC 4120, 7.2.2) */
    KRBLS_TOO_LONG = 2,             /* a frame is longer than the limit, or a message than 2147483647 octets */
    KRBLS_EMPTY = 3,                /* a frame or a message has no octets */
    KRBLS_TAG = 4,                  /* no tag that may come here (8.1.2) */
    KRBLS_OVERRUN = 5,              /* an item is longer than what is left of its container */
    KRBLS_INDEFINITE = 6,           /* a length of the indefinite form (8.1.3.6, 10.1) */
    KRBLS_LENGTH_WIDE = 7,          /* a length of five octets or more (8.1.3.5) */
    KRBLS_LENGTH_NOT_MINIMAL = 8,   /* a length that has a shorter form (10.1) */
    KRBLS_LOOSE = 9,                /* the only item of a container does not fill it */
    KRBLS_SIZE = 10,                /* contents of a length that the type does not have */
    KRBLS_INTEGER_NOT_MINIMAL = 11, /* the first nine bits of an INTEGER are equal (8.3.2) */
    KRBLS_RANGE = 12,               /* an INTEGER outside the range of its field (RFC 4120, 5.2.4) */
    KRBLS_TIME = 13,                /* no KerberosTime (RFC 4120, 5.2.3) */
    KRBLS_BITS = 14,                /* unused bits of a BIT STRING that are too many or set (8.6, 11.2) */
    KRBLS_MISSING = 15,             /* a field that has to be there is not */
    KRBLS_TRUNCATED = 16,           /* the input ends inside a frame; no judgement returns it, listings say it */
    KRBLS_CHARSET = 17,             /* an octet above 7F in a string, by the strict profile (RFC 4120, 5.2.1) */
    KRBLS_MORE = 255                /* nothing is decided yet: more octets are needed */
};

/* What a listing returns: the status of its command. krbls_path returns 0 if there is a path, and 1 if there is none. Wrong
 * names are told by krbls_fields alone. */
enum krbls_status { KRBLS_CLEAN = 0, KRBLS_REFUSED = 1, KRBLS_WRONG_NAMES = 2, KRBLS_OUT_OF_MEMORY = 3 };

/* An enumeration is passed and returned as a number of 32 bits. A compiler that has shorter ones (-fshort-enums) stops here. */
typedef char krbls_enumerations_have_32_bits[sizeof(enum krbls_answer) == 4 && sizeof(enum krbls_form) == 4 ? 1 : -1];

/* The name of a reason, as listings have it: "HighBit" of 1 to "Charset" of 17. It is "Ok" of 0, "More" of 255, and ""
 * of any other number. */
static inline const char *krbls_reason_name(enum krbls_answer answer) {
    static const char *const names[] = {
        "Ok", "HighBit", "TooLong", "Empty", "Tag", "Overrun", "Indefinite", "LengthWide", "LengthNotMinimal", "Loose",
        "Size", "IntegerNotMinimal", "Range", "Time", "Bits", "Missing", "Truncated", "Charset"};
    return (size_t)answer < sizeof names / sizeof *names ? names[answer] : answer == KRBLS_MORE ? "More" : "";
}

/* The version of the library that is called. KRBLS_VERSION_NUMBER is that of this header, so a program that is run with
 * another libkrbls.so than it was compiled for can tell. */
uint32_t krbls_version(void);

/* ---- Judgements. Each returns a krbls_answer. If it is a reason, *place is the octet at fault, counted from 0, and else
 * *place stays as it is. */

/* Judges octets as one message: KRBLS_OK or a reason. No octets are KRBLS_EMPTY at 0, and more than 2147483647 are
 * KRBLS_TOO_LONG at 0. */
enum krbls_answer krbls_judge(enum krbls_profile profile, const uint8_t *octets, size_t octets_size, uint32_t *place);

/* Judges the first octets of a message of n octets: KRBLS_OK if they are the whole message, KRBLS_MORE if nothing is
 * decided yet, or the reason for which no message of n octets begins with them. Octets after the first n are not looked
 * at. An n of 0 is KRBLS_EMPTY, and one above 2147483647 KRBLS_TOO_LONG. */
enum krbls_answer krbls_front(enum krbls_profile profile, size_t n, const uint8_t *octets, size_t octets_size,
                              uint32_t *place);

/* Judges the frame with which a stream begins (RFC 4120, 7.2.2: four octets of length, the highest first, and a message):
 * KRBLS_OK if it is there and holds a message, KRBLS_MORE if nothing is decided yet, or a reason; *place counts from the
 * first octet of the length. *size is always written: how many octets the frame has, with those of its length, so the
 * next one begins there, also after a refusal. It is 4 if fewer octets than these are there, and 0 if the frame is
 * refused for the high bit of its length, which has no meaning yet. A frame may announce at most `limit` octets, 1 to
 * 2147483647; a limit that is none, as 0, is 16777216. Each call looks at the frame from its first octet on. */
enum krbls_answer krbls_frame(enum krbls_profile profile, uint32_t limit, const uint8_t *stream, size_t stream_size,
                              uint32_t *size, uint32_t *place);

/* ---- Texts. Each call writes as many octets of its text as there is room for into `text`, and how many the whole text
 * has into *size; so one with a room of 0 says how much is needed. No NUL ends the text. If memory runs out, it returns
 * KRBLS_OUT_OF_MEMORY and writes nothing. */

/* The path of the field at fault, such as AS-REQ.req-body.nonce, by the names of RFC 4120, in a message of n octets of
 * which these are the first: the field with the refused octet, or, if they are not refused and not all there, the
 * innermost that is open. Returns 0, or 1 if there is none, and then *size is 0: if they are a message, or the tag of
 * none, or if n is above 2147483647. n is the octets_size that was passed to krbls_judge, the n of krbls_front, and of a
 * frame the *size of krbls_frame less 4, with the octets after those of its length. */
enum krbls_status krbls_path(enum krbls_profile profile, size_t n, const uint8_t *octets, size_t octets_size,
                             uint8_t *text, size_t room, size_t *size);

/* Listings, each what the command of its name prints of these octets, with its status: 0 if all is well, or 1 if
 * something is refused or, of a capture, lost or unread. Lines are of ASCII, and each ends with a line feed. */

/* One message, or a Ticket, by itself, after four octets of its length, or in a token of GSS-API or SPNEGO: its line, or
 * that of the refusal. The octets are never read as text, though the command reads text. */
enum krbls_status krbls_message(enum krbls_form form, enum krbls_profile profile, const uint8_t *octets,
                                size_t octets_size, uint8_t *text, size_t room, size_t *size);

/* Where each item of what krbls_message reads is in these octets: a line for each field, pre-authentication data in the clear and
 * layers among them, and then one for the end, or for the item at fault, what is reached if the first length is believed, and
 * the refusal. */
enum krbls_status krbls_items(enum krbls_form form, enum krbls_profile profile, const uint8_t *octets, size_t octets_size,
                              uint8_t *text, size_t room, size_t *size);

/* Framed messages, up to their end or the first refusal, or, unless going_on is 0, also after refusals, as with
 * `--keep-going`. The limit is that of krbls_frame. */
enum krbls_status krbls_stream(enum krbls_form form, enum krbls_profile profile, uint32_t limit, uint32_t going_on,
                               const uint8_t *octets, size_t octets_size, uint8_t *text, size_t room, size_t *size);

/* A keytab. */
enum krbls_status krbls_keytab(enum krbls_form form, const uint8_t *octets, size_t octets_size, uint8_t *text,
                               size_t room, size_t *size);

/* A credential cache. Unless now is 0, it is a time in seconds since 1970-01-01, and each ticket has a state then. */
enum krbls_status krbls_ccache(enum krbls_form form, uint32_t now, const uint8_t *octets, size_t octets_size,
                               uint8_t *text, size_t room, size_t *size);

/* A capture, a pcap or a pcapng. The limit is that of krbls_frame, and the port that of KDCs, of which 0 is 88. */
enum krbls_status krbls_capture(enum krbls_form form, uint32_t limit, uint16_t port, const uint8_t *octets,
                                size_t octets_size, uint8_t *text, size_t room, size_t *size);

/* Rows of cells, as `krbls --fields` prints them: of each record that has all of the names a line, in which the members of
 * that names come with a tab between. The names are those of `--fields`, with commas between them, as
 * "client,ticket.etype_name". The limit, going_on and port are those of the listings above, and so is now.
 * If not all was read (KRBLS_REFUSED), and the record that says so has no row, `said` has its line. Names that no record of
 * the listing has are KRBLS_WRONG_NAMES: there is no row, and `said` has a line that says which one is wrong, and what is
 * near it, or that no kind of record has all of them. */
enum krbls_status krbls_fields(enum krbls_listing listing, enum krbls_profile profile, uint32_t limit, uint32_t going_on,
                               uint32_t now, uint16_t port, const uint8_t *names, size_t names_size,
                               const uint8_t *octets, size_t octets_size, uint8_t *text, size_t room, size_t *size,
                               uint8_t *said, size_t said_room, size_t *said_size);

/* Where the octets lie of each record that octets are listed as, by what their first octets say, in JSON: two numbers for
 * each, the place of its first octet and how many there are. `room` and *size count these numbers. They are: of a message
 * or a Ticket, in a frame or in a token, its own; of a refused frame all, with its length, as far as they are there; of a
 * refused message all; of an entry or a hole those after its length; of a cache those of its default principal; of a
 * credential or a configuration entry its own; of each record of a packet those of that packet in the file; and of the last
 * record, none from where reading ended, or, if it is a refusal, those from where the part begins that is refused. */
enum krbls_status krbls_spans(enum krbls_profile profile, uint32_t limit, uint32_t going_on, uint16_t port,
                              const uint8_t *octets, size_t octets_size, uint64_t *spans, size_t room, size_t *size);

/* ---- Conversions. Each writes two texts: what it makes, and into `said` a line for all that is left out, as the command of
 * its name has it on the standard error after `krbls: NAME: `, without hints. It returns KRBLS_REFUSED if something is said. */

/* Messages whole, as `krbls decode` prints them, a line of JSON each, by what the first octets say; treat them like the octets
 * themselves. The limit and going_on are those of krbls_stream, and the port that of KDCs, of which 0 is 88; a packet that is
 * not 0 is the number of the one packet of a capture of which messages are decoded. Octets are never read as text. */
enum krbls_status krbls_decode(enum krbls_profile profile, uint32_t limit, uint32_t going_on, uint16_t port, uint32_t packet,
                               const uint8_t *octets, size_t octets_size, uint8_t *text, size_t room, size_t *size,
                               uint8_t *said, size_t said_room, size_t *said_size);

/* The messages that lines of JSON spell, as `krbls encode` writes them: each after four octets of its length, or, unless
 * unframed is 0, the one message without them. A message may have at most `limit` octets, as a frame of krbls_frame. */
enum krbls_status krbls_encode(enum krbls_profile profile, uint32_t limit, uint32_t unframed, const uint8_t *lines,
                               size_t lines_size, uint8_t *octets, size_t room, size_t *size, uint8_t *said,
                               size_t said_room, size_t *said_size);

#ifdef __cplusplus
}
#endif
#endif
