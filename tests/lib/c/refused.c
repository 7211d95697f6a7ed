/* Refuses each allocation of each call of the standard input in turn, alone and with all after it. A call has to answer
 * KRBLS_OUT_OF_MEMORY and leave its caller's memory as it was, or, if one alone was refused, may do as it does with enough
 * memory; and it has to give back what it took. Linked with --wrap of malloc, realloc and free. */
#include "calls.h"

static long next_refused = -1, taken, held;
static int all_after;

void *__real_malloc(size_t);
void *__real_realloc(void *, size_t);
void __real_free(void *);

static int is_refused(void) {
    if (next_refused < 0) return 0;
    long number = taken++;
    return number == next_refused || (all_after && number > next_refused);
}

void *__wrap_malloc(size_t size) {
    if (is_refused()) return NULL;
    held++;
    return __real_malloc(size);
}

void *__wrap_realloc(void *before, size_t size) {
    if (is_refused()) return NULL;
    if (!before) held++;
    return __real_realloc(before, size);
}

void __wrap_free(void *before) {
    if (before) held--;
    __real_free(before);
}

static uint8_t text[1 << 20], kept[1 << 20], wanted[1 << 20];

int main(void) {
    struct call call;
    unsigned long tried = 0, wrong = 0;
    while (read_call(stdin, &call)) {
        size_t whole = 0;
        uint32_t status = do_call(&call, wanted, sizeof wanted, &whole);
        for (all_after = 0; all_after < 2; all_after++)
            for (long number = 0;; number++) {
                size_t size = 77;
                memset(text, 0xA5, sizeof text);
                memset(kept, 0xA5, sizeof kept);
                long before = held;
                next_refused = number, taken = 0;
                uint32_t answer = do_call(&call, text, sizeof text, &size);
                int was_refused = taken > number;
                next_refused = -1;
                tried++;
                int nothing = answer == KRBLS_OUT_OF_MEMORY && size == 77 && !memcmp(text, kept, sizeof text);
                int done = answer == status && size == whole && !memcmp(text, wanted, size) && !memcmp(text + size, kept, sizeof text - size);
                int right = held == before && (!was_refused ? done : all_after ? nothing : nothing || done);
                if (!right) { wrong++; fprintf(stderr, "%s: allocation %ld: answer %u, size %zu, held %ld\n", call.command, number, answer, size, held - before); }
                if (!was_refused) break;
            }
        free(call.octets);
    }
    printf("%lu calls, %lu wrong\n", tried, wrong);
    return wrong != 0;
}
