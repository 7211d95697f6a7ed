#include <krbls.h>
#include <stdio.h>

int main(void) {
    static uint8_t octets[1 << 20];
    size_t size = fread(octets, 1, sizeof octets, stdin);
    uint32_t place;
    enum krbls_answer answer = krbls_judge(KRBLS_LENIENT, octets, size, &place);
    if (answer == KRBLS_OK) puts("a message");
    else printf("%s at %u\n", krbls_reason_name(answer), place);
    return answer != KRBLS_OK;
}
