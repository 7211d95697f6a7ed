#include <krbls.h>
#include <stdio.h>
#include <string.h>

int main(int argc, char **argv) {
    static uint8_t octets[1 << 24], text[1 << 20], said[1 << 12];
    size_t present = fread(octets, 1, sizeof octets, stdin), size = 0, said_size = 0;
    const char *names = argc > 1 ? argv[1] : "kind";
    enum krbls_status status = krbls_fields(
        KRBLS_BY_FIRST_OCTETS, KRBLS_LENIENT, 0, 0, 0, 0, (const uint8_t *)names, strlen(names),
        octets, present, text, sizeof text, &size, said, sizeof said, &said_size);
    fwrite(text, 1, size < sizeof text ? size : sizeof text, stdout);
    fwrite(said, 1, said_size < sizeof said ? said_size : sizeof said, stderr);
    return status;
}
