/* What is put at the end of a line, where there is room for it. */

#pragma once

#include "items.h"

/* Notes, as bits. */
enum { HIGH_OCTETS = 1, FEW_FLAGS = 2, NEGATIVE = 4, EMPTY_LIST = 8 };

/* The end of a line that is written, and the notes on its message. */
struct line {
    uint8_t *at;
    unsigned notes;
};

/* The two digits of each number below 100. */
static const char pairs_of_digits[] = "00010203040506070809101112131415161718192021222324252627282930313233343536373839"
                                      "40414243444546474849505152535455565758596061626364656667686970717273747576777879"
                                      "8081828384858687888990919293949596979899";

static const uint8_t hexadecimal[] = "0123456789abcdef";

/* Puts one character. */
INLINE void put_character(struct line *line, char character) { *line->at++ = character; }

/* Puts a text whose size the compiler knows. */
INLINE void put_text(struct line *line, const char *text)
{
    memcpy(line->at, text, strlen(text));
    line->at += strlen(text);
}

/* Sets the digits of a number below 100, with zeros before them. */
INLINE void set_two_digits(uint8_t *at, unsigned number) { memcpy(at, pairs_of_digits + 2 * number, 2); }

/* Sets the digits of a number below 100000000, likewise. */
INLINE void set_eight_digits(uint8_t *at, uint32_t number)
{
    uint32_t high = number / 10000, low = number % 10000;
    set_two_digits(at, high / 100);
    set_two_digits(at + 2, high % 100);
    set_two_digits(at + 4, low / 100);
    set_two_digits(at + 6, low % 100);
}

static uint8_t *set_digits(uint8_t *at, uint64_t number);

/* Sets the digits of a number of eleven digits or more, and returns their end. */
RARE uint8_t *set_many_digits(uint8_t *at, uint64_t number)
{
    at = set_digits(at, number / 100000000);
    set_eight_digits(at, number % 100000000);
    return at + 8;
}

/* Sets the digits of a number of three digits or more, and returns their end. */
static uint8_t *set_digits(uint8_t *at, uint64_t number)
{
    if (number < 1000) {
        *at = '0' + number / 100;
        set_two_digits(at + 1, number % 100);
        return at + 3;
    }
    if (number < 10000) {
        set_two_digits(at, number / 100);
        set_two_digits(at + 2, number % 100);
        return at + 4;
    }
    if (number < 100000000) {
        uint8_t digits[16];
        set_eight_digits(digits, number);
        unsigned zeros = (number < 10000000) + (number < 1000000) + (number < 100000);
        memcpy(at, digits + zeros, 8);
        return at + 8 - zeros;
    }
    if (number >= 10000000000)
        return set_many_digits(at, number);
    set_two_digits(at, number / 100000000);
    at[0] = at[number < 1000000000];
    at += number < 1000000000 ? 1 : 2;
    set_eight_digits(at, number % 100000000);
    return at + 8;
}

/* Puts a number in decimal. */
INLINE void put_number(struct line *line, uint64_t number)
{
    if (number < 10) {
        put_character(line, '0' + number);
    } else if (number < 100) {
        set_two_digits(line->at, number);
        line->at += 2;
    } else {
        line->at = set_digits(line->at, number);
    }
}

/* Puts a number in decimal, with its sign if it is negative. */
INLINE void put_integer(struct line *line, int64_t number)
{
    if (!LIKELY(number >= 0)) {
        put_character(line, '-');
        number = -number;
    }
    put_number(line, number);
}

/* Which of 16 octets are escaped, as bits: all but the graphic ones of ASCII, and of these / @ and \. */
INLINE unsigned escaped_of(__m128i octets)
{
    __m128i are_graphic = _mm_cmpgt_epi8(octets, _mm_set1_epi8(' '));
    __m128i are_slashes =
        _mm_or_si128(_mm_cmpeq_epi8(octets, _mm_set1_epi8('/')), _mm_cmpeq_epi8(octets, _mm_set1_epi8('\\')));
    __m128i are_others =
        _mm_or_si128(_mm_cmpeq_epi8(octets, _mm_set1_epi8('@')), _mm_cmpeq_epi8(octets, _mm_set1_epi8(0x7F)));
    return _mm_movemask_epi8(_mm_andnot_si128(_mm_or_si128(are_slashes, are_others), are_graphic)) ^ 0xFFFF;
}

/* Puts an octet as it is or, if it is escaped, in hexadecimal. */
INLINE void put_octet(struct line *line, uint8_t octet, bool is_escaped)
{
    if (!is_escaped) {
        put_character(line, octet);
        return;
    }
    if (octet >= 0x80)
        line->notes |= HIGH_OCTETS;
    put_text(line, "\\x");
    put_character(line, hexadecimal[octet >> 4]);
    put_character(line, hexadecimal[octet & 15]);
}

/* Puts a string that is long, or has octets that are escaped. */
APART struct line with_escapes(struct line line, struct octets string)
{
    while (string.at < string.end) {
        __m128i octets = load_16(string.at);
        unsigned escaped = escaped_of(octets), count = size_of(string) < 16 ? size_of(string) : 16;
        if (escaped == 0 && count == 16) {
            store_16(line.at, octets);
            line.at += 16;
        } else {
            for (unsigned place = 0; place < count; place++)
                put_octet(&line, string.at[place], escaped >> place & 1);
        }
        string.at += count;
    }
    return line;
}

/* Puts a string with its escapes. */
INLINE void put_string(struct line *line, struct octets string)
{
    size_t size = size_of(string);
    __m128i first = load_16(string.at);
    if (LIKELY(size <= 16) && LIKELY((escaped_of(first) & ((1u << size) - 1)) == 0)) {
        store_16(line->at, first);
        line->at += size;
        return;
    }
    if (size > 16 && size <= 32) {
        __m128i last = load_16(string.end - 16);
        if ((escaped_of(first) | escaped_of(last)) == 0) {
            store_16(line->at, first);
            store_16(line->at + size - 16, last);
            line->at += size;
            return;
        }
    }
    *line = with_escapes(*line, string);
}

/* Sets the eight digits of four octets. */
INLINE void set_hexadecimal(uint8_t *at, const uint8_t *octets)
{
    __m128i twice = _mm_cvtsi32_si128(load(octets)), low_halves = _mm_set1_epi8(15), even = _mm_set1_epi16(0xFF);
    twice = _mm_unpacklo_epi8(twice, twice);
    __m128i high = _mm_and_si128(_mm_srli_epi16(twice, 4), low_halves), low = _mm_and_si128(twice, low_halves);
    __m128i digits = _mm_or_si128(_mm_and_si128(high, even), _mm_andnot_si128(even, low));
    _mm_storel_epi64((__m128i *)at, _mm_shuffle_epi8(load_16(hexadecimal), digits));
}

/* Puts octets in hexadecimal. */
INLINE void put_hexadecimal(struct line *line, struct octets in)
{
    for (; size_of(in) >= 4; in.at += 4, line->at += 8)
        set_hexadecimal(line->at, in.at);
    for (; in.at < in.end; in.at++) {
        put_character(line, hexadecimal[*in.at >> 4]);
        put_character(line, hexadecimal[*in.at & 15]);
    }
}

/* Puts how many bits a KerberosFlags has, and its octets. */
INLINE void put_flags(struct line *line, struct octets flags)
{
    size_t bits = 8 * (size_of(flags) - 1) - *flags.at++;
    if (bits < 32)
        line->notes |= FEW_FLAGS;
    put_number(line, bits);
    put_character(line, ':');
    put_hexadecimal(line, flags);
}

/* Puts a KerberosTime. */
INLINE void put_time(struct line *line, struct octets time)
{
    store_16(line->at, load_16(time.at));
    line->at += 15;
}

/* Puts a number of 32 bits, with a sign or without. */
INLINE void put_wide32(struct line *line, int64_t number)
{
    if (!LIKELY(number >= 0))
        line->notes |= NEGATIVE;
    put_integer(line, number);
}

/* Takes the next of the strings of a name, which are judged already. */
INLINE struct octets next_name(struct octets *names)
{
    size_t size = names->at[1];
    names->at += 2;
    if (!LIKELY(size < 0x80)) {
        unsigned count = size - 0x80;
        for (size = 0; count > 0; count--)
            size = size << 8 | *names->at++;
    }
    struct octets name = {names->at, names->at + size};
    names->at = name.end;
    return name;
}

/* Puts the strings of a name with / between them, and an @. */
INLINE void put_names(struct line *line, struct octets names)
{
    if (ends(names))
        put_text(line, "\\-/");
    while (names.at < names.end) {
        put_string(line, next_name(&names));
        put_character(line, '/');
    }
    line->at[-1] = '@';
}

/* Puts a name and its realm. */
INLINE void put_principal(struct line *line, struct octets names, struct octets realm)
{
    put_names(line, names);
    put_string(line, realm);
}

/* Puts what is in the clear of an EncryptedData. */
INLINE void put_encrypted(struct line *line, const struct encrypted *encrypted)
{
    put_integer(line, encrypted->etype);
    put_character(line, ':');
    if (encrypted->has_kvno)
        put_wide32(line, encrypted->kvno);
    else
        put_character(line, '-');
    put_character(line, ':');
    put_number(line, encrypted->cipher_size);
}

/* Puts a number of a list, and a comma. */
INLINE void put_list_item(struct line *line, int64_t number)
{
    put_integer(line, number);
    put_character(line, ',');
}

/* Puts the end of a list, in place of the comma after its last item. */
INLINE void end_list(struct line *line)
{
    line->at -= line->at[-1] == ',';
    put_character(line, ']');
}

/* Puts this many of the types that are kept. */
INLINE void put_types(struct line *line, size_t count)
{
    put_character(line, '[');
    for (size_t place = 0; place < count; place++)
        put_list_item(line, padata_types[place]);
    end_list(line);
}

/* Puts the notes, and returns the end of the line. */
INLINE uint8_t *end_line(struct line line)
{
    if (LIKELY(line.notes == 0)) {
        put_text(&line, " notes=[]\n");
        return line.at;
    }
    put_text(&line, " notes=[");
    for (unsigned note = 0; line.notes >> note != 0; note++)
        if (line.notes >> note & 1)
            put_list_item(&line, note + 1);
    end_list(&line);
    put_character(&line, '\n');
    return line.at;
}
