/* Makes each call of the standard input in a thread whose stack has 64 KiB, as krbls.h promises that suffices. */
#include "calls.h"
#include <pthread.h>

static uint8_t text[1 << 22];
static struct call call;

static void *run(void *nothing) {
    size_t size;
    uint32_t place, frame_size;
    do_call(&call, text, sizeof text, &size);
    krbls_judge(KRBLS_STRICT, call.octets, call.size, &place);
    krbls_frame(KRBLS_STRICT, 0, call.octets, call.size, &frame_size, &place);
    return nothing;
}

int main(void) {
    unsigned long made = 0;
    pthread_attr_t attributes;
    pthread_t thread;
    pthread_attr_init(&attributes);
    if (pthread_attr_setstacksize(&attributes, 64 * 1024)) return 2;
    for (; read_call(stdin, &call); made++) {
        if (pthread_create(&thread, &attributes, run, NULL) || pthread_join(thread, NULL)) return 2;
        free(call.octets);
    }
    printf("%lu calls\n", made);
    return 0;
}
