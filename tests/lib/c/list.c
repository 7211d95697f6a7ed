/* Lists what the standard input names, a call a line, and writes each text after a line `COMMAND STATUS SIZE`. A call is
 * made with no room first, then with too little, and then with enough; what is outside of the room may not change. */
#include "calls.h"

int main(void) {
    struct call call;
    while (read_call(stdin, &call)) {
        uint8_t one[1] = {0xA5};
        size_t size = 0, again = 0;
        uint32_t status = do_call(&call, one, 0, &size);
        if (one[0] != 0xA5) { fprintf(stderr, "%s: wrote without room\n", call.command); return 1; }
        uint8_t *text = malloc(size + 1), *half = malloc(size + 1);
        if (!text || !half) return 2;
        memset(text, 0xA5, size + 1);
        memset(half, 0xA5, size + 1);
        if (do_call(&call, text, size, &again) != status || again != size) { fprintf(stderr, "%s: another answer\n", call.command); return 1; }
        if (do_call(&call, half, size / 2, &again) != status || again != size) { fprintf(stderr, "%s: another half\n", call.command); return 1; }
        int same = !memcmp(text, half, size / 2) && text[size] == 0xA5;
        for (size_t i = size / 2; i <= size; i++) same &= half[i] == 0xA5;
        if (!same) { fprintf(stderr, "%s: wrote outside of the room\n", call.command); return 1; }
        printf("%s %u %zu\n", call.command, status, size);
        fwrite(text, 1, size, stdout);
        free(text);
        free(half);
        free(call.octets);
    }
    return 0;
}
