/* Seals a flight row from C and opens it again, sees that a damaged one is declined, and computes a CMAC. */
#include "../include/vanhseak.h"
#include <stdio.h>
#include <string.h>

#define ROW "SVA113 A388 350 E0412 RWY 34L"
#define SPARE 16

static const uint8_t nonce[16] = {3, 0, 0, 0, 'T', 'W', 'R'}, none[1] = {0};
static uint8_t bundle[48];
static int failures;

static void show(const char *what, const uint8_t *bytes, size_t len) {
    printf("%-7s", what);
    for (size_t i = 0; i < len; i++) printf("%02x", bytes[i]);
    puts("");
}

static void check(const char *what, int holds) {
    if (holds) return;
    printf("FAILED: %s\n", what);
    failures++;
}

static int all_zero(const uint8_t *bytes, size_t len) {
    for (size_t i = 0; i < len; i++)
        if (bytes[i] != 0) return 0;
    return 1;
}

static void seal_and_open(void) {
    uint8_t row[] = ROW;
    const size_t len = sizeof row - 1;
    show("row", row, len);
    check("sealed", vanhseak_aes128_seal(bundle, sizeof bundle, nonce, sizeof nonce, none, 0, row, len) == 0);
    show("sealed", row, len);
    check("opened", vanhseak_aes128_open(bundle, sizeof bundle, nonce, sizeof nonce, none, 0, row, len) == 0);
    show("opened", row, len);
    size_t refusal = vanhseak_aes128_seal(bundle, sizeof bundle - 1, nonce, sizeof nonce, none, 0, row, len);
    printf("a bundle that is one byte short: declined with %zu\n", refusal);
    check("declined, and the row as it was", refusal == 3 && memcmp(row, ROW, len) == 0);
}

static void open_damaged(void) {
    uint8_t row[sizeof ROW - 1 + SPARE] = ROW;
    check("sealed with proof", vanhseak_aes128_seal_with_proof(bundle, sizeof bundle, nonce, sizeof nonce, none, 0, row, sizeof row) == 0);
    row[0] ^= 1;
    size_t refusal = vanhseak_aes128_open_with_proof(bundle, sizeof bundle, nonce, sizeof nonce, none, 0, row, sizeof row);
    printf("one bit turned over: declined with %zu\n", refusal);
    show("left", row, sizeof row);
    check("not genuine, and all zero", refusal == 10 && all_zero(row, sizeof row));
}

/* The first example of SP 800-38B for AES-128: the empty message. */
static void authenticate(void) {
    static const uint8_t key[16] = {0x2b, 0x7e, 0x15, 0x16, 0x28, 0xae, 0xd2, 0xa6, 0xab, 0xf7, 0x15, 0x88, 0x09, 0xcf, 0x4f, 0x3c};
    static const uint8_t published[16] = {0xbb, 0x1d, 0x69, 0x29, 0xe9, 0x59, 0x37, 0x28, 0x7f, 0xa3, 0x7d, 0x12, 0x9b, 0x75, 0x67, 0x46};
    uint8_t code[16] = {0};
    check("CMAC accepted", vanhseak_aes128_cmac(key, sizeof key, none, 0, code) == 0);
    show("CMAC", code, sizeof code);
    check("the published code", memcmp(code, published, sizeof code) == 0);
    size_t refusal = vanhseak_aes128_cmac(key, sizeof key - 1, none, 0, code);
    printf("a key that is one byte short: declined with %zu\n", refusal);
    check("declined, and the code as it was", refusal == 3 && memcmp(code, published, sizeof code) == 0);
}

int main(void) {
    for (size_t i = 0; i < sizeof bundle; i++) bundle[i] = (uint8_t)i;
    seal_and_open();
    open_damaged();
    authenticate();
    return failures != 0;
}
