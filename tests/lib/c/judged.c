/* Judges framed messages of a file, each of their first octets and each with one octet changed, and checks what the header
 * says of the calls beside each other: a refusal is at one of the octets, and stays the same whatever is after it; of fewer
 * octets nothing is decided; a frame is refused where its contents are; what the strict profile accepts, the lenient one
 * does. Each is judged in memory of exactly its size. */
#include "calls.h"

static unsigned long judged, refused, wrong;

static void check(int holds, const char *what, const uint8_t *octets, size_t size) {
    if (holds) return;
    if (wrong++ > 9) return;
    fprintf(stderr, "%s: ", what);
    for (size_t i = 0; i < size && i < 200; i++) fprintf(stderr, "%02x", octets[i]);
    fprintf(stderr, "\n");
}

/* Octets of a message of n octets that are at the end of their memory. */
static void judge(uint32_t profile, size_t n, const uint8_t *octets, size_t size) {
    uint8_t *stream = malloc(4 + size), *message = malloc(size ? size : 1);
    if (!stream || !message) exit(2);
    for (int i = 0; i < 4; i++) stream[i] = (uint8_t)(n >> (24 - 8 * i));
    if (size) memcpy(stream + 4, octets, size), memcpy(message, octets, size);
    uint32_t place = 7777777, place_of_frame = 7777777, frame_size = 0;
    uint32_t answer = krbls_front(profile, n, message, size, &place);
    uint32_t of_frame = krbls_frame(profile, 0, stream, 4 + size, &frame_size, &place_of_frame);
    judged++;
    refused += answer != KRBLS_OK && answer != KRBLS_MORE;
    check(of_frame == answer && frame_size == 4 + n, "another answer of the frame", octets, size);
    if (answer == KRBLS_OK || answer == KRBLS_MORE) {
        check(place == 7777777 && place_of_frame == 7777777, "a place without a refusal", octets, size);
        check((answer == KRBLS_OK) == (size == n), "decided too early or too late", octets, size);
    } else {
        check(place < size && place_of_frame == 4 + place, "a place outside", octets, size);
        uint32_t again = 0, sooner = krbls_front(profile, n, message, place, &again);
        check(sooner == KRBLS_MORE, "not the first octet at fault", octets, size);
        check(krbls_front(profile, n, message, place + 1, &again) == answer && again == place, "not final", octets, size);
        check(answer >= 4 && answer <= 17 && answer != KRBLS_TRUNCATED, "no reason of a message", octets, size);
        check(profile != KRBLS_LENIENT || answer != KRBLS_CHARSET, "a reason of the strict profile", octets, size);
    }
    if (size == n) {
        uint32_t whole = krbls_judge(profile, message, size, &place);
        check(whole == answer, "another answer of the whole", octets, size);
        if (profile == KRBLS_STRICT && whole == KRBLS_OK)
            check(krbls_judge(KRBLS_LENIENT, message, size, &place) == KRBLS_OK, "strict and not lenient", octets, size);
    }
    free(stream);
    free(message);
}

int main(int argc, char **argv) {
    size_t size;
    uint8_t *all = octets_of(argv[1], &size);
    size_t most = argc > 2 ? (size_t)atol(argv[2]) : 300;
    for (size_t i = 0; i + 4 <= size;) {
        size_t n = (size_t)all[i] << 24 | (size_t)all[i + 1] << 16 | (size_t)all[i + 2] << 8 | all[i + 3];
        uint8_t *octets = all + i + 4;
        for (uint32_t profile = 0; profile < 2; profile++) {
            judge(profile, n, octets, n);
            for (size_t k = 0; k < n && k < most; k++) {
                judge(profile, n, octets, k);
                judge(profile, k + 1, octets, k + 1);
                octets[k] ^= 0x81;
                judge(profile, n, octets, n);
                octets[k] ^= 0x81;
            }
        }
        i += 4 + n;
    }
    /* Numbers that are no length, and octets after those of the message. */
    uint32_t place = 5, frame_size = 5;
    uint8_t high[4] = {0x80, 0, 0, 1}, long_one[4] = {0x01, 0, 0, 1}, empty[4] = {0, 0, 0, 0}, row[4] = {0, 0, 0, 31};
    check(krbls_version() == KRBLS_VERSION_NUMBER, "version", high, 0);
    check(krbls_judge(0, high, 0, &place) == KRBLS_EMPTY && place == 0, "empty", high, 0);
    check(krbls_front(0, 0, high, 4, &place) == KRBLS_EMPTY && place == 0, "a message of no octets", high, 4);
    check(krbls_front(0, (size_t)1 << 31, high, 4, &place) == KRBLS_TOO_LONG && place == 0, "a message too long", high, 4);
    check(krbls_frame(0, 0, high, 4, &frame_size, &place) == KRBLS_HIGH_BIT && place == 3 && frame_size == 0, "high bit", high, 4);
    check(krbls_frame(0, 0, long_one, 4, &frame_size, &place) == KRBLS_TOO_LONG && place == 3 && frame_size == (1 << 24) + 5, "too long", long_one, 4);
    check(krbls_frame(0, (1u << 24) + 1, long_one, 4, &frame_size, &place) == KRBLS_MORE && frame_size == (1 << 24) + 5, "within the limit", long_one, 4);
    check(krbls_frame(0, 0, empty, 4, &frame_size, &place) == KRBLS_EMPTY && frame_size == 4, "no contents", empty, 4);
    check(krbls_frame(0, 0, row, 3, &frame_size, &place) == KRBLS_MORE && frame_size == 4, "a part of a length", row, 3);
    check(krbls_frame(0, 30, row, 4, &frame_size, &place) == KRBLS_TOO_LONG && frame_size == 35, "above a limit", row, 4);
    check(krbls_frame(0, 31, row, 4, &frame_size, &place) == KRBLS_MORE && frame_size == 35, "at a limit", row, 4);
    free(all);
    printf("%lu judgements, %lu refusals, %lu wrong\n", judged, refused, wrong);
    return wrong != 0;
}
