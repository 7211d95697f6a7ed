/* Tells each frame of a stream that comes on the standard input, such as one direction of a TCP connection to a KDC. */
#include <krbls.h>
#include <stdio.h>
#include <string.h>

int main(void) {
    static uint8_t stream[1 << 20];
    size_t present = 0;
    for (;;) {
        uint32_t size, place;
        enum krbls_answer answer = krbls_frame(KRBLS_LENIENT, sizeof stream - 4, stream, present, &size, &place);
        if (answer == KRBLS_MORE) {
            size_t got = fread(stream + present, 1, size - present, stdin);
            if (got == 0) return present != 0;
            present += got;
            continue;
        }
        if (answer != KRBLS_OK) {
            printf("%s at %u\n", krbls_reason_name(answer), place);
            return 1;
        }
        printf("a message in %u octets\n", size);
        memmove(stream, stream + size, present -= size);
    }
}
