/* A harness for fuzzers: the decoders of MIT krb5 beside krbls. Each message that one takes and the other refuses is told, of
 * each kind, reason and field the first one, with the octet at fault.
 *
 *   clang -g -O1 -fsanitize=fuzzer,address -Ic -o fuzz examples/fuzz_mit.c bin/libkrbls.a -lkrb5
 *   ./fuzz -max_total_time=60 CORPUS     libFuzzer; also built by afl-clang-fast with -fsanitize=fuzzer, for AFL
 *   cc -DFUZZ_FILES -Ic -o files examples/fuzz_mit.c bin/libkrbls.a -lkrb5
 *   ./files FILE..                       without a fuzzer: each file is a message
 *
 * For another decoder, put its call in place of `accepts`. The decoders of libkrb5 are not in its header, so they are
 * declared here as in its k5-int.h; they take octets after a message, which krbls does not. */
#include <krb5.h>
#include <krbls.h>
#include <stdio.h>
#include <stdlib.h>
#include <string.h>

#define DECODER(kind, type, free_of)                                              \
    krb5_error_code decode_krb5_##kind(const krb5_data *, type **);                \
    void free_of(krb5_context, type *);                                            \
    static int takes_##kind(krb5_context context, const krb5_data *octets) {       \
        type *message = NULL;                                                      \
        if (decode_krb5_##kind(octets, &message)) return 0;                        \
        free_of(context, message);                                                 \
        return 1;                                                                  \
    }

typedef struct safe krb5_safe;
typedef struct priv krb5_priv;
DECODER(as_req, krb5_kdc_req, krb5_free_kdc_req)
DECODER(as_rep, krb5_kdc_rep, krb5_free_kdc_rep)
DECODER(tgs_req, krb5_kdc_req, krb5_free_kdc_req)
DECODER(tgs_rep, krb5_kdc_rep, krb5_free_kdc_rep)
DECODER(ap_req, krb5_ap_req, krb5_free_ap_req)
DECODER(ap_rep, krb5_ap_rep, krb5_free_ap_rep)
DECODER(safe, krb5_safe, krb5_free_safe)
DECODER(priv, krb5_priv, krb5_free_priv)
DECODER(cred, krb5_cred, krb5_free_cred)
DECODER(error, krb5_error, krb5_free_error)

/* The decoder of each tag (RFC 4120, 5.10). */
static const struct {
    uint8_t tag;
    const char *kind;
    int (*takes)(krb5_context, const krb5_data *);
} decoders[] = {{0x6A, "AS-REQ", takes_as_req},    {0x6B, "AS-REP", takes_as_rep}, {0x6C, "TGS-REQ", takes_tgs_req},
                {0x6D, "TGS-REP", takes_tgs_rep},  {0x6E, "AP-REQ", takes_ap_req}, {0x6F, "AP-REP", takes_ap_rep},
                {0x74, "KRB-SAFE", takes_safe},    {0x75, "KRB-PRIV", takes_priv}, {0x76, "KRB-CRED", takes_cred},
                {0x7E, "KRB-ERROR", takes_error}};

/* Whether the decoder under test takes octets; the kind by their tag, or NULL if there is none. */
static int accepts(const uint8_t *octets, size_t size, const char **kind) {
    static krb5_context context;
    if (!context && krb5_init_context(&context)) exit(2);
    krb5_data data = {.magic = 0, .length = (unsigned)size, .data = (char *)octets};
    *kind = NULL;
    for (size_t i = 0; size && i < sizeof decoders / sizeof *decoders; i++)
        if (octets[0] == decoders[i].tag) return *kind = decoders[i].kind, decoders[i].takes(context, &data);
    return 0;
}

/* Whether a text was told before. An index in a path counts as any other: the texts are few. */
static int was_told(const char *text) {
    static char told[4096][128];
    static size_t count;
    char key[sizeof *told] = "";
    for (size_t i = 0, k = 0; text[i] && k + 1 < sizeof key; i++)
        if (text[i] < '0' || text[i] > '9') key[k++] = text[i];
    for (size_t i = 0; i < count; i++)
        if (!strcmp(told[i], key)) return 1;
    if (count < sizeof told / sizeof *told) strcpy(told[count++], key);
    return 0;
}

int LLVMFuzzerTestOneInput(const uint8_t *data, size_t size) {
    static const uint8_t none[1];
    const uint8_t *octets = size ? data : none;
    const char *kind;
    int taken = accepts(octets, size, &kind);
    uint32_t place = 0;
    enum krbls_answer reason = krbls_judge(KRBLS_LENIENT, octets, size, &place);
    if (!kind || taken == (reason == KRBLS_OK)) return 0;
    char path[256] = "-", text[512];
    size_t needed = 0;
    if (!krbls_path(KRBLS_LENIENT, size, octets, size, (uint8_t *)path, sizeof path - 1, &needed))
        path[needed < sizeof path ? needed : sizeof path - 1] = 0;
    snprintf(text, sizeof text, "%s %s %s in %s", kind, taken ? "taken" : "refused", krbls_reason_name(reason), path);
    if (was_told(text)) return 0;
    if (taken) fprintf(stderr, "krbls refuses what the decoder takes: %s at %u in %s:", krbls_reason_name(reason), place, path);
    else fprintf(stderr, "the decoder refuses what krbls takes: %s:", kind);
    for (size_t i = 0; i < size && i < 400; i++) fprintf(stderr, i == place && taken ? " [%02x]" : "%02x", octets[i]);
    fprintf(stderr, size > 400 ? "...\n" : "\n");
    return 0;
}

#ifdef FUZZ_FILES
int main(int argc, char **argv) {
    static uint8_t octets[1 << 20];
    for (int i = 1; i < argc; i++) {
        FILE *file = fopen(argv[i], "rb");
        if (!file) return perror(argv[i]), 2;
        LLVMFuzzerTestOneInput(octets, fread(octets, 1, sizeof octets, file));
        fclose(file);
    }
    return 0;
}
#endif
