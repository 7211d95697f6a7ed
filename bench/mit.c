/* Decodes the framed messages of the standard input by MIT's library, one after another, and prints the name
   of each: what the benchmark measures beside bin/krbls. The decoders are exported by libkrb5, and krb5.h does
   not declare them, nor two of the types. */

#include <krb5.h>
#include <stdio.h>
#include <stdlib.h>

typedef struct krb5_safe krb5_safe;
typedef struct krb5_priv krb5_priv;

extern krb5_error_code decode_krb5_as_req(const krb5_data *, krb5_kdc_req **);
extern krb5_error_code decode_krb5_as_rep(const krb5_data *, krb5_kdc_rep **);
extern krb5_error_code decode_krb5_tgs_req(const krb5_data *, krb5_kdc_req **);
extern krb5_error_code decode_krb5_tgs_rep(const krb5_data *, krb5_kdc_rep **);
extern krb5_error_code decode_krb5_ap_req(const krb5_data *, krb5_ap_req **);
extern krb5_error_code decode_krb5_ap_rep(const krb5_data *, krb5_ap_rep **);
extern krb5_error_code decode_krb5_safe(const krb5_data *, krb5_safe **);
extern krb5_error_code decode_krb5_priv(const krb5_data *, krb5_priv **);
extern krb5_error_code decode_krb5_cred(const krb5_data *, krb5_cred **);
extern krb5_error_code decode_krb5_error(const krb5_data *, krb5_error **);
extern void krb5_free_kdc_req(krb5_context, krb5_kdc_req *);
extern void krb5_free_kdc_rep(krb5_context, krb5_kdc_rep *);
extern void krb5_free_ap_req(krb5_context, krb5_ap_req *);
extern void krb5_free_ap_rep(krb5_context, krb5_ap_rep *);
extern void krb5_free_safe(krb5_context, krb5_safe *);
extern void krb5_free_priv(krb5_context, krb5_priv *);
extern void krb5_free_cred(krb5_context, krb5_cred *);

/* Decodes a message of TYPE by DECODE and frees it by RELEASE, and returns the name, or no text if it is refused. */
#define DECODED(type, decode, release, name) \
    {                                        \
        type *message;                       \
        if (decode(contents, &message) != 0) \
            return NULL;                     \
        release(context, message);           \
        return name;                         \
    }

static const char *decoded(krb5_context context, const krb5_data *contents)
{
    switch ((unsigned char)contents->data[0]) {
    case 0x6A: DECODED(krb5_kdc_req, decode_krb5_as_req, krb5_free_kdc_req, "AS-REQ")
    case 0x6B: DECODED(krb5_kdc_rep, decode_krb5_as_rep, krb5_free_kdc_rep, "AS-REP")
    case 0x6C: DECODED(krb5_kdc_req, decode_krb5_tgs_req, krb5_free_kdc_req, "TGS-REQ")
    case 0x6D: DECODED(krb5_kdc_rep, decode_krb5_tgs_rep, krb5_free_kdc_rep, "TGS-REP")
    case 0x6E: DECODED(krb5_ap_req, decode_krb5_ap_req, krb5_free_ap_req, "AP-REQ")
    case 0x6F: DECODED(krb5_ap_rep, decode_krb5_ap_rep, krb5_free_ap_rep, "AP-REP")
    case 0x74: DECODED(krb5_safe, decode_krb5_safe, krb5_free_safe, "KRB-SAFE")
    case 0x75: DECODED(krb5_priv, decode_krb5_priv, krb5_free_priv, "KRB-PRIV")
    case 0x76: DECODED(krb5_cred, decode_krb5_cred, krb5_free_cred, "KRB-CRED")
    case 0x7E: DECODED(krb5_error, decode_krb5_error, krb5_free_error, "KRB-ERROR")
    default: return NULL;
    }
}

int main(void)
{
    krb5_context context;
    unsigned char length[4];
    size_t room = 1 << 20;
    char *octets = malloc(room);
    if (octets == NULL || krb5_init_context(&context) != 0)
        return 3;
    while (fread(length, 1, 4, stdin) == 4) {
        size_t size = (size_t)length[0] << 24 | length[1] << 16 | length[2] << 8 | length[3];
        krb5_data contents = {.length = size, .data = octets};
        if (size == 0 || size > room || fread(octets, 1, size, stdin) != size)
            return 1;
        const char *name = decoded(context, &contents);
        if (name == NULL)
            return 1;
        puts(name);
    }
    return 0;
}
