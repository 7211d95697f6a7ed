/* Lists the framed messages of the standard input as `krbls stream` does, in the same lines, and as fast as that can be
   written in C: what the benchmark measures beside bin/krbls. Each message is judged, as strictly as RFC 4120 and DER
   ask, and its line is written, in one pass over its octets. What krbls refuses is refused here, after the same lines,
   but only by the word `refused`, without a place and a reason.

   Heads of items, times, strings and digits are looked at some octets at once (SSSE3: cc -march=x86-64-v2). So up to
   SPARE octets are read or written past the end of what is there, which buffers have room for, and by which nothing is
   decided. */

#include "lister/fields.h"

#include <stdlib.h>
#include <unistd.h>

/* The types of messages of RFC 4120, whose tags are these beside 0x60. */
enum { AS_REQ = 10, AS_REP = 11, TGS_REQ = 12, TGS_REP = 13, AP_REQ = 14, AP_REP = 15 };
enum { KRB_SAFE = 20, KRB_PRIV = 21, KRB_CRED = 22, KRB_ERROR = 30 };

/* The error that a KDC answers with METHOD-DATA. */
enum { PREAUTH_REQUIRED = 25 };

/* What was read and is not listed yet. */
static uint8_t *input;
static size_t input_room, input_size;

/* Lines that are not written yet. */
static uint8_t *output;
static size_t output_room;
static uint8_t *output_at;

static uint64_t messages;

/* Messages: each function judges the fields of one and lists it from AT on, and returns the end of its line, or NULL
   if it is refused */

/* Takes the pre-authentication data of a KDC-REQ or a KDC-REP, whose types are kept, if they are there. */
INLINE bool take_padata(struct octets *in, unsigned number, bool *has_padata, size_t *count, struct line *line)
{
    struct octets items;
    *has_padata = next_is(*in, number);
    if (!*has_padata)
        return true;
    if (!take_field(in, number, SEQUENCE, &items) || !keep_types(items, count))
        return false;
    if (*count == 0)
        line->notes |= EMPTY_LIST;
    return true;
}

/* Puts the types that take_padata kept, or - if there are no data. */
INLINE void put_padata(struct line *line, bool has_padata, size_t count)
{
    put_text(line, " padata=");
    if (has_padata)
        put_types(line, count);
    else
        put_character(line, '-');
}

/* Puts a name of the realm whose text is there already, if it has strings. */
INLINE void put_name(struct line *line, const char *label, struct octets names, struct octets text)
{
    put_text(line, label);
    if (names.at == NULL) {
        put_character(line, '-');
        return;
    }
    put_names(line, names);
    if (LIKELY(size_of(text) <= 16))
        store_16(line->at, load_16(text.at));
    else
        memcpy(line->at, text.at, size_of(text));
    line->at += size_of(text);
}

/* Lists the options, the realm and the names of a KDC-REQ-BODY. */
INLINE bool list_names(struct octets *body, struct line *line)
{
    struct octets options, client, realm, server, text = {line->at, NULL};
    if (!take_flags(body, 0, &options) || !take_optional_principal(body, 1, &client) ||
        !take_field(body, 2, GENERAL_STRING, &realm) || !take_optional_principal(body, 3, &server))
        return false;
    put_string(line, realm);
    text.end = line->at;
    put_name(line, " client=", client, text);
    put_name(line, " server=", server, text);
    put_text(line, " options=");
    put_flags(line, options);
    return true;
}

/* An AS-REQ or a TGS-REQ. */
APART uint8_t *kdc_req(uint8_t *at, struct octets in, unsigned type)
{
    struct line line = {at, 0};
    struct octets body;
    bool has_padata;
    size_t count = 0;
    if (!take_version(&in, 1, type) || !take_padata(&in, 3, &has_padata, &count, &line) ||
        !take_field(&in, 4, SEQUENCE, &body) || !ends(in))
        return NULL;
    if (type == AS_REQ)
        put_text(&line, "AS-REQ realm=");
    else
        put_text(&line, "TGS-REQ realm=");
    if (!list_names(&body, &line) || !list_optional(&line, " from=", list_time, &body, 4) ||
        !list_field(&line, " till=", list_time, &body, 5) || !list_optional(&line, " rtime=", list_time, &body, 6) ||
        !list_field(&line, " nonce=", list_wide32, &body, 7) || !list_field(&line, " etypes=", list_etypes, &body, 8))
        return NULL;
    put_padata(&line, has_padata, count);
    if (!list_optional(&line, " addresses=", list_addresses, &body, 9) ||
        !list_optional(&line, " authdata=", list_encrypted, &body, 10) ||
        !list_optional(&line, " tickets=", list_additional_tickets, &body, 11) || !ends(body))
        return NULL;
    return end_line(line);
}

/* An AS-REP or a TGS-REP. */
APART uint8_t *kdc_rep(uint8_t *at, struct octets in, unsigned type)
{
    struct line line = {at, 0};
    struct octets realm, client;
    struct ticket ticket;
    bool has_padata;
    size_t count = 0;
    if (!take_version(&in, 0, type) || !take_padata(&in, 2, &has_padata, &count, &line) ||
        !take_field(&in, 3, GENERAL_STRING, &realm) || !take_principal(&in, 4, &client) ||
        !take_ticket(&in, 5, &ticket))
        return NULL;
    if (type == AS_REP)
        put_text(&line, "AS-REP client=");
    else
        put_text(&line, "TGS-REP client=");
    put_principal(&line, client, realm);
    put_text(&line, " server=");
    put_principal(&line, ticket.server, ticket.realm);
    put_padata(&line, has_padata, count);
    put_text(&line, " ticket=");
    put_encrypted(&line, &ticket.encrypted);
    return list_field(&line, " enc=", list_encrypted, &in, 6) && ends(in) ? end_line(line) : NULL;
}

/* An AP-REQ. */
APART uint8_t *ap_req(uint8_t *at, struct octets in)
{
    struct line line = {at, 0};
    struct octets options;
    struct ticket ticket;
    if (!take_version(&in, 0, AP_REQ) || !take_flags(&in, 2, &options) || !take_ticket(&in, 3, &ticket))
        return NULL;
    put_text(&line, "AP-REQ server=");
    put_principal(&line, ticket.server, ticket.realm);
    put_text(&line, " options=");
    put_flags(&line, options);
    put_text(&line, " ticket=");
    put_encrypted(&line, &ticket.encrypted);
    return list_field(&line, " auth=", list_encrypted, &in, 4) && ends(in) ? end_line(line) : NULL;
}

/* An AP-REP. */
APART uint8_t *ap_rep(uint8_t *at, struct octets in)
{
    struct line line = {at, 0};
    bool is_listed =
        take_version(&in, 0, AP_REP) && list_field(&line, "AP-REP enc=", list_encrypted, &in, 2) && ends(in);
    return is_listed ? end_line(line) : NULL;
}

/* A KRB-PRIV. */
APART uint8_t *krb_priv(uint8_t *at, struct octets in)
{
    struct line line = {at, 0};
    bool is_listed =
        take_version(&in, 0, KRB_PRIV) && list_field(&line, "KRB-PRIV enc=", list_encrypted, &in, 3) && ends(in);
    return is_listed ? end_line(line) : NULL;
}

/* A KRB-CRED. */
APART uint8_t *krb_cred(uint8_t *at, struct octets in)
{
    struct line line = {at, 0};
    bool is_listed = take_version(&in, 0, KRB_CRED) && list_field(&line, "KRB-CRED tickets=", list_tickets, &in, 2) &&
                     list_field(&line, " enc=", list_encrypted, &in, 3) && ends(in);
    return is_listed ? end_line(line) : NULL;
}

/* A KRB-SAFE. */
APART uint8_t *krb_safe(uint8_t *at, struct octets in)
{
    struct line line = {at, 0};
    struct octets body;
    bool is_listed = take_version(&in, 0, KRB_SAFE) && take_field(&in, 2, SEQUENCE, &body) &&
                     list_field(&line, "KRB-SAFE size=", list_size, &body, 0) &&
                     list_optional(&line, " time=", list_time, &body, 1) &&
                     list_optional(&line, " usec=", list_microseconds, &body, 2) &&
                     list_optional(&line, " seq=", list_wide32, &body, 3) &&
                     list_field(&line, " sender=", list_address, &body, 4) &&
                     list_optional(&line, " receiver=", list_address, &body, 5) && ends(body) &&
                     list_field(&line, " cksum=", list_checksum, &in, 3) && ends(in);
    return is_listed ? end_line(line) : NULL;
}

/* The names of errors that lines have, each with how many characters it has. */
#define NAME(name)            \
    {                         \
        sizeof name - 1, name \
    }
static const struct {
    uint8_t size, name[32];
} error_names[62] = {
    [6] = NAME(":KDC_ERR_C_PRINCIPAL_UNKNOWN"), [7] = NAME(":KDC_ERR_S_PRINCIPAL_UNKNOWN"),
    [14] = NAME(":KDC_ERR_ETYPE_NOSUPP"),       [24] = NAME(":KDC_ERR_PREAUTH_FAILED"),
    [25] = NAME(":KDC_ERR_PREAUTH_REQUIRED"),   [37] = NAME(":KRB_AP_ERR_SKEW"),
    [52] = NAME(":KRB_ERR_RESPONSE_TOO_BIG"),   [60] = NAME(":KRB_ERR_GENERIC"),
    [61] = NAME(":KRB_ERR_FIELD_TOOLONG"),
};

/* Puts the number of an error, and its name if lines have one. */
INLINE void put_error(struct line *line, int64_t code)
{
    put_integer(line, code);
    if (code < 0 || code > 61)
        return;
    store_16(line->at, load_16(error_names[code].name));
    store_16(line->at + 16, load_16(error_names[code].name + 16));
    line->at += error_names[code].size;
}

/* Lists the data of a KRB-ERROR: their size, and of METHOD-DATA the types. */
INLINE bool list_error_data(struct octets *in, int64_t code, struct line *line)
{
    struct octets data, items;
    size_t count;
    if (!next_is(*in, 12)) {
        put_text(line, " data=- methods=-");
        return true;
    }
    if (!take_field(in, 12, OCTET_STRING, &data))
        return false;
    put_text(line, " data=");
    put_number(line, size_of(data));
    put_text(line, " methods=");
    if (code == PREAUTH_REQUIRED && take_item(&data, SEQUENCE, &items) && ends(data) && keep_types(items, &count))
        put_types(line, count);
    else
        put_character(line, '-');
    return true;
}

/* Lists the times of a KRB-ERROR, which are put apart, since what comes after them is put before them. */
INLINE bool list_times(struct octets *in, struct line *times)
{
    return list_optional(times, " ctime=", list_time, in, 2) &&
           list_optional(times, " cusec=", list_microseconds, in, 3) &&
           list_field(times, " stime=", list_time, in, 4) && list_field(times, " susec=", list_microseconds, in, 5);
}

/* Lists the name of a client, if both parts of it are there. */
INLINE void put_client(struct line *line, struct octets names, struct octets realm)
{
    put_text(line, " client=");
    if (names.at != NULL && realm.at != NULL) {
        put_principal(line, names, realm);
    } else {
        put_character(line, '-');
        note_names(names, line);
        note_string(realm, line);
    }
}

/* A KRB-ERROR. */
APART uint8_t *krb_error(uint8_t *at, struct octets in)
{
    enum { TIMES = 80 };
    uint8_t text[TIMES + SPARE];
    struct line line = {at, 0}, times = {text, 0};
    struct octets client_realm, client, realm, server;
    int64_t code;
    if (!take_version(&in, 0, KRB_ERROR) || !list_times(&in, &times) || !take_int32(&in, 6, &code) ||
        !take_optional(&in, 7, GENERAL_STRING, &client_realm) || !take_optional_principal(&in, 8, &client) ||
        !take_field(&in, 9, GENERAL_STRING, &realm) || !take_principal(&in, 10, &server))
        return NULL;
    put_text(&line, "KRB-ERROR code=");
    put_error(&line, code);
    put_client(&line, client, client_realm);
    put_text(&line, " server=");
    put_principal(&line, server, realm);
    memcpy(line.at, text, TIMES);
    line.at += times.at - text;
    if (!list_optional(&line, " text=", list_text, &in, 11) || !list_error_data(&in, code, &line) || !ends(in))
        return NULL;
    return end_line(line);
}

/* A message, of whichever type. */
static uint8_t *message(uint8_t *at, struct octets in)
{
    struct octets contents, fields;
    uint8_t tag = *in.at;
    if (!take_item(&in, tag, &contents) || !ends(in) || !take_item(&contents, SEQUENCE, &fields) || !ends(contents))
        return NULL;
    switch (tag ^ 0x60) {
    case AS_REQ:
    case TGS_REQ: return kdc_req(at, fields, tag ^ 0x60);
    case AS_REP:
    case TGS_REP: return kdc_rep(at, fields, tag ^ 0x60);
    case AP_REQ: return ap_req(at, fields);
    case AP_REP: return ap_rep(at, fields);
    case KRB_SAFE: return krb_safe(at, fields);
    case KRB_PRIV: return krb_priv(at, fields);
    case KRB_CRED: return krb_cred(at, fields);
    case KRB_ERROR: return krb_error(at, fields);
    default: return NULL;
    }
}

/* Streams */

/* How many octets are read at once, and of how many octets the lines are that are written at once, or of some more. */
enum { PIECE = 1 << 16 };

/* The most octets of a message, and the fewest of a PA-DATA. */
enum { MOST_OCTETS = 1 << 24, LEAST_PADATA = 11 };

/* A line has at most so many characters for each octet of its message, since the realm of a KDC-REQ is put three times
   and an octet that is escaped has four characters; and beside these no more than its labels and numbers. */
enum { MOST_CHARACTERS = 12, LABELS = 1024 };

/* For the lines of a piece, and one of a message of as many octets as few have, there is room from the beginning. */
enum { OUTPUT = PIECE + MOST_CHARACTERS * 10000 };

/* Writes the lines that are there. */
static void write_output(void)
{
    for (uint8_t *at = output; at < output_at;) {
        ssize_t count = write(1, at, output_at - at);
        if (count < 0)
            exit(3);
        at += count;
    }
    output_at = output;
}

/* Ends the lines that are there with the word, and the program. */
RARE _Noreturn void refuse(void)
{
    memcpy(output_at, "refused\n", 8);
    output_at += 8;
    write_output();
    exit(1);
}

/* A vector with what it has, and of another size. */
static void *resized(void *octets, size_t size)
{
    octets = realloc(octets, size);
    if (octets == NULL)
        exit(3);
    return octets;
}

/* Makes room for a line of at most so many characters. */
INLINE void make_room(size_t size)
{
    if (LIKELY((size_t)(output + output_room - output_at) >= size))
        return;
    write_output();
    if (output_room < size) {
        output_room = size;
        output_at = output = resized(output, size);
    }
}

/* Reads a piece after what is there, and returns whether there was any. */
static bool read_piece(void)
{
    if (input_room - input_size < PIECE) {
        input_room = 2 * (input_room + PIECE);
        input = resized(input, input_room + SPARE);
        padata_types = resized(padata_types, input_room / LEAST_PADATA * sizeof *padata_types);
    }
    ssize_t count = read(0, input + input_size, PIECE);
    if (count < 0)
        exit(3);
    input_size += count;
    return count > 0;
}

/* Lists the frames that are there whole, and keeps what follows them. */
static void list_frames(void)
{
    struct octets in = {input, input + input_size};
    while (size_of(in) >= 4) {
        size_t size = __builtin_bswap32(load(in.at));
        if (size == 0 || size > MOST_OCTETS)
            refuse();
        if (size_of(in) - 4 < size)
            break;
        make_room(MOST_CHARACTERS * size + LABELS);
        in.at += 4;
        uint8_t *end = message(output_at, (struct octets){in.at, in.at + size});
        if (end == NULL)
            refuse();
        messages++;
        in.at += size;
        output_at = end;
        if (output_at - output >= PIECE)
            write_output();
    }
    input_size = size_of(in);
    memmove(input, in.at, input_size);
}

/* Lists the standard input. */
int main(void)
{
    make_room(OUTPUT);
    while (read_piece())
        list_frames();
    if (input_size > 0)
        refuse();
    struct line line = {output_at, 0};
    put_text(&line, "end messages=");
    put_number(&line, messages);
    put_character(&line, '\n');
    output_at = line.at;
    write_output();
    return 0;
}
