/* What the tests of the C library share: octets of files, and a call of any listing. */
#ifndef CALLS_H
#define CALLS_H
#include <krbls.h>
#include <stdio.h>
#include <stdlib.h>
#include <string.h>

/* A call: its command, its options and its octets. `form` is the packet of decode, and the listing of fields; going_on is
 * unframed of encode. After `-said` of a command what it says is the text. */
struct call {
    char command[16];
    unsigned form, profile, limit, going_on, now, port;
    char names[256];
    uint8_t *octets;
    size_t size;
};

/* The octets of a file, in memory of exactly their size, so that a read outside of it is seen. */
static inline uint8_t *octets_of(const char *name, size_t *size) {
    FILE *file = fopen(name, "rb");
    if (!file || fseek(file, 0, SEEK_END)) { perror(name); exit(2); }
    *size = (size_t)ftell(file);
    rewind(file);
    uint8_t *octets = malloc(*size ? *size : 1);
    if (!octets || fread(octets, 1, *size, file) != *size) { perror(name); exit(2); }
    fclose(file);
    return octets;
}

/* Reads `COMMAND FORM PROFILE LIMIT GOING_ON NOW PORT NAMES FILE`; 0 at the end. */
static inline int read_call(FILE *from, struct call *call) {
    char name[1024];
    int found = fscanf(from, "%15s %u %u %u %u %u %u %255s %1023s", call->command, &call->form, &call->profile, &call->limit,
                       &call->going_on, &call->now, &call->port, call->names, name);
    if (found != 9) return 0;
    call->octets = octets_of(name, &call->size);
    return 1;
}

/* Two texts, of which one is the text of the call, and the other has no room. */
static inline uint32_t do_conversion(const struct call *c, uint8_t *text, size_t room, size_t *size, uint8_t *said,
                                     size_t said_room, size_t *said_size) {
    if (!strncmp(c->command, "decode", 6))
        return krbls_decode(c->profile, c->limit, c->going_on, (uint16_t)c->port, c->form, c->octets, c->size, text, room, size,
                            said, said_room, said_size);
    if (!strncmp(c->command, "encode", 6))
        return krbls_encode(c->profile, c->limit, c->going_on, c->octets, c->size, text, room, size, said, said_room, said_size);
    if (!strncmp(c->command, "fields", 6))
        return krbls_fields(c->form, c->profile, c->limit, c->going_on, c->now, (uint16_t)c->port, (const uint8_t *)c->names,
                            strlen(c->names), c->octets, c->size, text, room, size, said, said_room, said_size);
    fprintf(stderr, "no command %s\n", c->command);
    exit(2);
}

static inline uint32_t do_spans(const struct call *c, uint8_t *text, size_t room, size_t *size) {
    static uint64_t spans[1 << 16];
    size_t numbers = 0, count = room / 8 < 1 << 16 ? room / 8 : 1 << 16;
    uint32_t status = krbls_spans(c->profile, c->limit, c->going_on, (uint16_t)c->port, c->octets, c->size, spans, count, &numbers);
    if (status == KRBLS_OUT_OF_MEMORY) return status;
    memcpy(text, spans, 8 * (numbers < count ? numbers : count));
    *size = 8 * numbers;
    return status;
}

static inline uint32_t do_call(const struct call *c, uint8_t *text, size_t room, size_t *size) {
    if (!strcmp(c->command, "message")) return krbls_message(c->form, c->profile, c->octets, c->size, text, room, size);
    if (!strcmp(c->command, "items")) return krbls_items(c->form, c->profile, c->octets, c->size, text, room, size);
    if (!strcmp(c->command, "stream"))
        return krbls_stream(c->form, c->profile, c->limit, c->going_on, c->octets, c->size, text, room, size);
    if (!strcmp(c->command, "keytab")) return krbls_keytab(c->form, c->octets, c->size, text, room, size);
    if (!strcmp(c->command, "ccache")) return krbls_ccache(c->form, c->now, c->octets, c->size, text, room, size);
    if (!strcmp(c->command, "capture"))
        return krbls_capture(c->form, c->limit, (uint16_t)c->port, c->octets, c->size, text, room, size);
    if (!strcmp(c->command, "path")) return krbls_path(c->profile, c->size, c->octets, c->size, text, room, size);
    if (!strcmp(c->command, "spans")) return do_spans(c, text, room, size);
    uint8_t none[1] = {0xA5};
    size_t other = 0;
    uint32_t status = strstr(c->command, "-said") ? do_conversion(c, none, 0, &other, text, room, size)
                                                  : do_conversion(c, text, room, size, none, 0, &other);
    if (none[0] != 0xA5) { fprintf(stderr, "%s: wrote without room\n", c->command); exit(2); }
    return status;
}
#endif
