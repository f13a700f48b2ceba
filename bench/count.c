/* Seals or opens one message several times with the proved library, to count its instructions (see bench/shares). */
#include "../include/vanhseak.h"
#include <stdlib.h>
#include <string.h>

typedef size_t library_call(const uint8_t *, size_t, const uint8_t *, size_t, const uint8_t *, size_t, uint8_t *, size_t);

static library_call *named(const char *cipher, const char *way) {
    int aes = strcmp(cipher, "aes128") == 0, seal = strcmp(way, "seal") == 0;
    if (aes) return seal ? vanhseak_aes128_seal : vanhseak_aes128_open;
    return seal ? vanhseak_speck128_seal : vanhseak_speck128_open;
}

int main(int argc, char **argv) {
    static uint8_t bundle[48], nonce[16], message[65536];
    if (argc != 5) return 2;
    library_call *call = named(argv[1], argv[2]);
    size_t len = strtoul(argv[3], NULL, 10), turns = strtoul(argv[4], NULL, 10);
    for (size_t i = 0; i < sizeof bundle; i++) bundle[i] = (uint8_t)(i * 7 + 3);
    for (size_t i = 0; i < sizeof message; i++) message[i] = (uint8_t)(i * 13 + 5);
    for (size_t i = 0; i < turns; i++)
        if (call(bundle, sizeof bundle, nonce, sizeof nonce, nonce, 0, message, len) != 0) return 1;
    return 0;
}
