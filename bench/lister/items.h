/* Octets, the items of DER in them, and the values that messages of RFC 4120 have, judged as they are taken. */

#pragma once

#include <stdbool.h>
#include <stddef.h>
#include <stdint.h>
#include <string.h>
#include <tmmintrin.h>

#define INLINE static inline __attribute__((always_inline))
#define APART static __attribute__((noinline))
#define RARE static __attribute__((noinline, cold))
#define LIKELY(condition) __builtin_expect(!!(condition), 1)

/* How many octets past the end of others may be looked at. */
enum { SPARE = 16 };

/* The tags of X.690 that messages have, that of a Ticket, and that of a field of number 0. */
enum { INTEGER = 0x02, BIT_STRING = 0x03, OCTET_STRING = 0x04, GENERALIZED_TIME = 0x18, GENERAL_STRING = 0x1B };
enum { SEQUENCE = 0x30, TICKET = 0x61, FIELD = 0xA0 };

/* Octets that are read from left to right. */
struct octets {
    const uint8_t *at, *end;
};

/* An EncryptedData. */
struct encrypted {
    int64_t etype, kvno;
    bool has_kvno;
    size_t cipher_size;
};

struct ticket {
    struct octets realm, server;
    struct encrypted encrypted;
};

/* A HostAddress or a Checksum: a type, and octets. */
struct typed {
    int64_t type;
    struct octets octets;
};

/* The types of the pre-authentication data of a message, with room for those of each that was read. */
static int32_t *padata_types;

/* How many octets are left. */
INLINE size_t size_of(struct octets in) { return in.end - in.at; }

/* Whether no octet is left. */
INLINE bool ends(struct octets in) { return in.at == in.end; }

/* The four octets from a place on, as a number with the first one as its least. */
INLINE uint32_t load(const uint8_t *at)
{
    uint32_t number;
    memcpy(&number, at, sizeof number);
    return number;
}

/* The sixteen octets from a place on. */
INLINE __m128i load_16(const uint8_t *at) { return _mm_loadu_si128((const __m128i *)at); }

/* Sets the sixteen octets from a place on. */
INLINE void store_16(uint8_t *at, __m128i octets) { _mm_storeu_si128((__m128i *)at, octets); }

/* Items of DER */

/* The contents of the first item, of this tag, whatever form its length has; they are at NULL if it is refused. */
RARE struct octets contents_of(struct octets in, unsigned tag)
{
    static const struct octets refused;
    if (size_of(in) < 2 || in.at[0] != tag)
        return refused;
    uint64_t size = in.at[1];
    in.at += 2;
    if (size > 0x7F) {
        size_t count = size - 0x80;
        if (count < 1 || count > 4 || size_of(in) < count || in.at[0] == 0)
            return refused;
        for (size = 0; count > 0; count--)
            size = size << 8 | *in.at++;
        if (size < 0x80)
            return refused;
    }
    if (size_of(in) < size)
        return refused;
    in.end = in.at + size;
    return in;
}

/* The contents of the only item, of this tag, in the first field, of this number, likewise. */
RARE struct octets contents_in_field(struct octets in, unsigned number, unsigned tag)
{
    static const struct octets refused;
    struct octets field = contents_of(in, FIELD | number);
    if (field.at == NULL)
        return refused;
    struct octets contents = contents_of(field, tag);
    return contents.end == field.end ? contents : refused;
}

/* Takes SIZE octets after a head of some octets, if there are so many. */
INLINE bool take(struct octets *in, unsigned head, unsigned size, struct octets *contents)
{
    contents->at = in->at + head;
    if (in->end - contents->at < (ptrdiff_t)size)
        return false;
    contents->end = in->at = contents->at + size;
    return true;
}

/* How many octets the head of an item has, and how many octets its contents are, if they are fewer than 0x10000; or 0
   if its length is greater, or not in its shortest form. */
INLINE unsigned head_of(const uint8_t *at, unsigned *size)
{
    if (at[1] == 0x82 && at[2] != 0) {
        *size = at[2] << 8 | at[3];
        return 4;
    }
    *size = at[1];
    if (*size < 0x80)
        return 2;
    if (*size == 0x81 && at[2] >= 0x80) {
        *size = at[2];
        return 3;
    }
    return 0;
}

/* Takes the next item, of this tag. */
INLINE bool take_item(struct octets *in, unsigned tag, struct octets *contents)
{
    unsigned size;
    if (in->at[0] != tag || size_of(*in) < 2)
        return false;
    if (in->at[1] < 0x80)
        return take(in, 2, in->at[1], contents);
    unsigned head = head_of(in->at, &size);
    if (LIKELY(head != 0))
        return take(in, head, size, contents);
    *contents = contents_of(*in, tag);
    in->at = contents->end;
    return contents->at != NULL;
}

/* Takes the next field, of this number, and the contents of the only item in it, of this tag. Mostly both lengths have
   one octet: then the heads are compared at once, without the length of the item, by which the one of the field is
   greater than 2. */
INLINE bool take_field(struct octets *in, unsigned number, unsigned tag, struct octets *contents)
{
    uint32_t heads = load(in->at);
    unsigned size = heads >> 24, field_size;
    if (LIKELY(heads - size * 0x01000100 == (FIELD | number | 2 << 8 | tag << 16) && size < 0x7E))
        return take(in, 4, size, contents);
    if (in->at[0] != (FIELD | number))
        return false;
    unsigned field_head = head_of(in->at, &field_size), head = head_of(in->at + field_head, &size);
    if (LIKELY(field_head != 0 && head != 0))
        return in->at[field_head] == tag && head + size == field_size && take(in, field_head + head, size, contents);
    *contents = contents_in_field(*in, number, tag);
    in->at = contents->end;
    return contents->at != NULL;
}

/* Whether the next field has this number. */
INLINE bool next_is(struct octets in, unsigned number) { return *in.at == (FIELD | number) && in.at < in.end; }

/* The next field, as take_field, if it is there; if not, the contents are at NULL. */
INLINE bool take_optional(struct octets *in, unsigned number, unsigned tag, struct octets *contents)
{
    contents->at = contents->end = NULL;
    return !next_is(*in, number) || take_field(in, number, tag, contents);
}

/* The value of an INTEGER, if it is between these two. */
INLINE bool integer(struct octets in, int64_t least, int64_t most, int64_t *value)
{
    size_t size = size_of(in);
    int64_t number;
    if (size == 1) {
        number = (int8_t)in.at[0];
    } else if (size == 4) {
        number = (int32_t)__builtin_bswap32(load(in.at));
        if (number >> 23 == 0 || number >> 23 == -1)
            return false;
    } else {
        if (size == 0 || size > 5 || (in.at[0] == 0 && in.at[1] < 0x80) || (in.at[0] == 0xFF && in.at[1] > 0x7F))
            return false;
        number = (int8_t)in.at[0];
        for (size_t place = 1; place < size; place++)
            number = number * 256 + in.at[place];
    }
    *value = number;
    return least <= number && number <= most;
}

/* A field that is an INTEGER between these two. */
INLINE bool take_integer(struct octets *in, unsigned number, int64_t least, int64_t most, int64_t *value)
{
    struct octets contents;
    return take_field(in, number, INTEGER, &contents) && integer(contents, least, most, value);
}

/* An Int32. */
INLINE bool take_int32(struct octets *in, unsigned number, int64_t *value)
{
    return take_integer(in, number, INT32_MIN, INT32_MAX, value);
}

/* An Int32 that mostly has one octet: then all that is before it is compared at once. */
INLINE bool take_type(struct octets *in, unsigned number, int64_t *value)
{
    if (!LIKELY(load(in->at) == (0x010203A0 | number)))
        return take_int32(in, number, value);
    *value = (int8_t)in->at[4];
    in->at += 5;
    return in->at <= in->end;
}

/* A number of 32 bits, with a sign or without. */
INLINE bool take_wide32(struct octets *in, unsigned number, int64_t *value)
{
    return take_integer(in, number, INT32_MIN, UINT32_MAX, value);
}

/* A field that is an INTEGER of this value, of one octet. */
INLINE bool take_fixed(struct octets *in, unsigned number, unsigned value)
{
    bool is_fixed = size_of(*in) >= 5 && load(in->at) == (0x010203A0 | number) && in->at[4] == value;
    in->at += 5;
    return is_fixed;
}

/* Microseconds, below a million. */
INLINE bool take_microseconds(struct octets *in, unsigned number, int64_t *value)
{
    return take_integer(in, number, 0, 999999, value);
}

/* The first two fields of a message: the version, and this type. */
INLINE bool take_version(struct octets *in, unsigned number, unsigned type)
{
    return take_fixed(in, number, 5) && take_fixed(in, number + 1, type);
}

/* A KerberosTime: 14 digits and a Z. */
INLINE bool take_time(struct octets *in, unsigned number, struct octets *time)
{
    if (!take_field(in, number, GENERALIZED_TIME, time) || size_of(*time) != 15)
        return false;
    __m128i digits = _mm_sub_epi8(load_16(time->at), _mm_set1_epi8('0'));
    __m128i are_digits = _mm_cmpeq_epi8(_mm_min_epu8(digits, _mm_set1_epi8(9)), digits);
    return (_mm_movemask_epi8(are_digits) & 0x3FFF) == 0x3FFF && time->at[14] == 'Z';
}

/* A KerberosFlags: the number of bits that are not used, and octets, in which these are 0. */
INLINE bool take_flags(struct octets *in, unsigned number, struct octets *flags)
{
    if (!take_field(in, number, BIT_STRING, flags) || ends(*flags) || flags->at[0] > 7)
        return false;
    uint8_t unused = (1 << flags->at[0]) - 1;
    return size_of(*flags) == 1 ? unused == 0 : (flags->end[-1] & unused) == 0;
}

/* The strings of a PrincipalName. */
INLINE bool take_principal(struct octets *in, unsigned number, struct octets *names)
{
    struct octets name, string;
    int64_t type;
    if (!take_field(in, number, SEQUENCE, &name) || !take_type(&name, 0, &type) ||
        !take_field(&name, 1, SEQUENCE, names) || !ends(name))
        return false;
    for (struct octets left = *names; left.at < left.end;)
        if (!take_item(&left, GENERAL_STRING, &string))
            return false;
    return true;
}

/* The same, if it is there; if not, the strings are at NULL. */
INLINE bool take_optional_principal(struct octets *in, unsigned number, struct octets *names)
{
    names->at = names->end = NULL;
    return !next_is(*in, number) || take_principal(in, number, names);
}

/* The fields of an EncryptedData. */
INLINE bool encrypted_of(struct octets in, struct encrypted *encrypted)
{
    struct octets cipher;
    if (!take_type(&in, 0, &encrypted->etype))
        return false;
    encrypted->has_kvno = next_is(in, 1);
    if (encrypted->has_kvno && !take_wide32(&in, 1, &encrypted->kvno))
        return false;
    if (!take_field(&in, 2, OCTET_STRING, &cipher))
        return false;
    encrypted->cipher_size = size_of(cipher);
    return ends(in);
}

/* A field that is an EncryptedData. */
INLINE bool take_encrypted(struct octets *in, unsigned number, struct encrypted *encrypted)
{
    struct octets contents;
    return take_field(in, number, SEQUENCE, &contents) && encrypted_of(contents, encrypted);
}

/* The fields of a Ticket, from the contents of its tag. */
INLINE bool ticket_of(struct octets in, struct ticket *ticket)
{
    struct octets fields;
    return take_item(&in, SEQUENCE, &fields) && ends(in) && take_fixed(&fields, 0, 5) &&
           take_field(&fields, 1, GENERAL_STRING, &ticket->realm) && take_principal(&fields, 2, &ticket->server) &&
           take_encrypted(&fields, 3, &ticket->encrypted) && ends(fields);
}

/* A field that is a Ticket. */
INLINE bool take_ticket(struct octets *in, unsigned number, struct ticket *ticket)
{
    struct octets contents;
    return take_field(in, number, TICKET, &contents) && ticket_of(contents, ticket);
}

/* The fields of a HostAddress or a Checksum; the octets are at NULL if they are none. */
APART struct typed typed_of(struct octets in)
{
    struct typed typed;
    if (!take_int32(&in, 0, &typed.type) || !take_field(&in, 1, OCTET_STRING, &typed.octets) || !ends(in))
        typed.octets.at = NULL;
    return typed;
}

/* A field that is a HostAddress or a Checksum. */
INLINE bool take_typed(struct octets *in, unsigned number, struct typed *typed)
{
    struct octets contents;
    if (!take_field(in, number, SEQUENCE, &contents))
        return false;
    *typed = typed_of(contents);
    return typed->octets.at != NULL;
}

/* Judges the items of a SEQUENCE OF PA-DATA and keeps their types. */
INLINE bool keep_types(struct octets in, size_t *count)
{
    struct octets item, value;
    int64_t type;
    for (*count = 0; in.at < in.end; padata_types[(*count)++] = type)
        if (!take_item(&in, SEQUENCE, &item) || !take_type(&item, 1, &type) ||
            !take_field(&item, 2, OCTET_STRING, &value) || !ends(item))
            return false;
    return true;
}
