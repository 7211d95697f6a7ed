/* Fields that are put in a line where they are taken. */

#pragma once

#include "lines.h"

/* Takes a field and puts it in a line. */
typedef bool list(struct octets *in, unsigned number, struct line *line);

/* Lists a field by LIST, after a label. */
INLINE bool list_field(struct line *line, const char *label, list list, struct octets *in, unsigned number)
{
    put_text(line, label);
    return list(in, number, line);
}

/* The same, if it is there; if not, - is put. */
INLINE bool list_optional(struct line *line, const char *label, list list, struct octets *in, unsigned number)
{
    put_text(line, label);
    if (next_is(*in, number))
        return list(in, number, line);
    put_character(line, '-');
    return true;
}

/* A KerberosTime. */
INLINE bool list_time(struct octets *in, unsigned number, struct line *line)
{
    struct octets time;
    if (!take_time(in, number, &time))
        return false;
    put_time(line, time);
    return true;
}

/* A number of 32 bits, with a sign or without. */
INLINE bool list_wide32(struct octets *in, unsigned number, struct line *line)
{
    int64_t value;
    if (!take_wide32(in, number, &value))
        return false;
    put_wide32(line, value);
    return true;
}

/* A number of microseconds. */
INLINE bool list_microseconds(struct octets *in, unsigned number, struct line *line)
{
    int64_t value;
    if (!take_microseconds(in, number, &value))
        return false;
    put_number(line, value);
    return true;
}

/* How many octets an OCTET STRING has. */
INLINE bool list_size(struct octets *in, unsigned number, struct line *line)
{
    struct octets octets;
    if (!take_field(in, number, OCTET_STRING, &octets))
        return false;
    put_number(line, size_of(octets));
    return true;
}

/* A string between quotes. */
INLINE bool list_text(struct octets *in, unsigned number, struct line *line)
{
    struct octets text;
    if (!take_field(in, number, GENERAL_STRING, &text))
        return false;
    put_character(line, '"');
    put_string(line, text);
    put_character(line, '"');
    return true;
}

/* An EncryptedData. */
INLINE bool list_encrypted(struct octets *in, unsigned number, struct line *line)
{
    struct encrypted encrypted;
    if (!take_encrypted(in, number, &encrypted))
        return false;
    put_encrypted(line, &encrypted);
    return true;
}

/* A HostAddress. */
INLINE bool list_address(struct octets *in, unsigned number, struct line *line)
{
    struct typed address;
    if (!take_typed(in, number, &address))
        return false;
    put_integer(line, address.type);
    put_character(line, ':');
    put_hexadecimal(line, address.octets);
    return true;
}

/* The type of a Checksum, and how many octets it has. */
INLINE bool list_checksum(struct octets *in, unsigned number, struct line *line)
{
    struct typed checksum;
    if (!take_typed(in, number, &checksum))
        return false;
    put_integer(line, checksum.type);
    put_character(line, ':');
    put_number(line, size_of(checksum.octets));
    return true;
}

/* Types of encryption. */
INLINE bool list_etypes(struct octets *in, unsigned number, struct line *line)
{
    struct octets etypes, contents;
    int64_t etype;
    if (!take_field(in, number, SEQUENCE, &etypes))
        return false;
    put_character(line, '[');
    while (etypes.at < etypes.end) {
        if (LIKELY((load(etypes.at) & 0xFFFF) == (INTEGER | 1 << 8) && size_of(etypes) >= 3)) {
            etype = (int8_t)etypes.at[2];
            etypes.at += 3;
        } else if (!take_item(&etypes, INTEGER, &contents) || !integer(contents, INT32_MIN, INT32_MAX, &etype)) {
            return false;
        }
        put_list_item(line, etype);
    }
    end_list(line);
    return true;
}

/* How many addresses there are. */
INLINE bool list_addresses(struct octets *in, unsigned number, struct line *line)
{
    struct octets addresses, item;
    size_t count = 0;
    if (!take_field(in, number, SEQUENCE, &addresses))
        return false;
    for (; addresses.at < addresses.end; count++)
        if (!take_item(&addresses, SEQUENCE, &item) || typed_of(item).octets.at == NULL)
            return false;
    if (count == 0)
        line->notes |= EMPTY_LIST;
    put_number(line, count);
    return true;
}

/* Notes of a string that is not listed. */
INLINE void note_string(struct octets in, struct line *line)
{
    for (; in.at < in.end; in.at++)
        if (*in.at >= 0x80)
            line->notes |= HIGH_OCTETS;
}

/* Notes of the strings of a name that is not listed. */
INLINE void note_names(struct octets names, struct line *line)
{
    while (names.at < names.end)
        note_string(next_name(&names), line);
}

/* Judges tickets, and counts and notes them. */
INLINE bool take_tickets(struct octets *in, unsigned number, size_t *count, struct line *line)
{
    struct octets tickets, item;
    struct ticket ticket;
    if (!take_field(in, number, SEQUENCE, &tickets))
        return false;
    for (*count = 0; tickets.at < tickets.end; ++*count) {
        if (!take_item(&tickets, TICKET, &item) || !ticket_of(item, &ticket))
            return false;
        note_string(ticket.realm, line);
        note_names(ticket.server, line);
        if (ticket.encrypted.has_kvno && ticket.encrypted.kvno < 0)
            line->notes |= NEGATIVE;
    }
    return true;
}

/* How many tickets a KRB-CRED has. */
INLINE bool list_tickets(struct octets *in, unsigned number, struct line *line)
{
    size_t count;
    if (!take_tickets(in, number, &count, line))
        return false;
    put_number(line, count);
    return true;
}

/* How many additional tickets a KDC-REQ has. */
INLINE bool list_additional_tickets(struct octets *in, unsigned number, struct line *line)
{
    size_t count;
    if (!take_tickets(in, number, &count, line))
        return false;
    if (count == 0)
        line->notes |= EMPTY_LIST;
    put_number(line, count);
    return true;
}
