/* Seals and opens messages with the proved library and with a plain implementation, in one run, and compares speed. */
#include "../include/vanhseak.h"
#include "plain.h"
#include <stdio.h>
#include <stdlib.h>
#include <string.h>
#include <time.h>

/* Each is timed so often, by turns, and its best timing counts: other work on the machine only makes one slower. */
#define ROUNDS 15

typedef size_t library_call(const uint8_t *, size_t, const uint8_t *, size_t, const uint8_t *, size_t, uint8_t *, size_t);

static uint8_t bundle[48], nonce[16], message[65536], other[65536];

/* The processor's time that this program has had. */
static double seconds(void) {
    struct timespec t;
    clock_gettime(CLOCK_PROCESS_CPUTIME_ID, &t);
    return (double)t.tv_sec + (double)t.tv_nsec / 1e9;
}

static void run_plain(enum plain_cipher cipher, int opening, uint8_t *m, size_t len) {
    if (opening) plain_open(cipher, bundle, nonce, sizeof nonce, nonce, 0, m, len);
    else plain_seal(cipher, bundle, nonce, sizeof nonce, nonce, 0, m, len);
}

static void run_library(library_call *call, uint8_t *m, size_t len) {
    if (call(bundle, sizeof bundle, nonce, sizeof nonce, nonce, 0, m, len) != 0) {
        fprintf(stderr, "the library declined a message of %zu bytes\n", len);
        exit(1);
    }
}

/* One timing, in bytes a second; the buffers are warm. With no call of the library, the plain implementation is timed. */
static double rate(library_call *call, enum plain_cipher cipher, int opening, size_t len) {
    size_t turns = 2000000 / (len + 400) + 1;
    double start = seconds();
    for (size_t i = 0; i < turns; i++) {
        if (call) run_library(call, message, len);
        else run_plain(cipher, opening, message, len);
    }
    return (double)(turns * len) / (seconds() - start);
}

static double higher(double a, double b) { return a > b ? a : b; }

int main(void) {
    static const size_t lengths[] = {16, 64, 256, 1000, 65536};
    static const struct { const char *name; enum plain_cipher cipher; library_call *seal, *open; } ciphers[] = {
        {"aes128", PLAIN_AES128, vanhseak_aes128_seal, vanhseak_aes128_open},
        {"speck128", PLAIN_SPECK128, vanhseak_speck128_seal, vanhseak_speck128_open},
    };
    for (size_t i = 0; i < sizeof bundle; i++) bundle[i] = (uint8_t)(i * 7 + 3);
    for (size_t i = 0; i < sizeof message; i++) message[i] = (uint8_t)(i * 13 + 5);
    printf("%-9s %-5s %7s %14s %14s %6s\n", "cipher", "call", "bytes", "library B/s", "plain B/s", "ratio");
    for (size_t c = 0; c < 2; c++)
        for (size_t l = 0; l < 5; l++)
            for (int opening = 0; opening < 2; opening++) {
                library_call *call = opening ? ciphers[c].open : ciphers[c].seal;
                size_t len = lengths[l];
                memcpy(other, message, len);
                run_library(call, message, len);
                run_plain(ciphers[c].cipher, opening, other, len);
                if (memcmp(message, other, len) != 0) {
                    fprintf(stderr, "the two differ at %zu bytes under %s\n", len, ciphers[c].name);
                    return 1;
                }
                double library = 0, plain = 0;
                for (int round = 0; round < ROUNDS; round++) {
                    library = higher(library, rate(call, ciphers[c].cipher, opening, len));
                    plain = higher(plain, rate(NULL, ciphers[c].cipher, opening, len));
                }
                printf("%-9s %-5s %7zu %14.0f %14.0f %6.2f\n", ciphers[c].name, opening ? "open" : "seal", len, library, plain, library / plain);
            }
    return 0;
}
