/* Every call of the header, against bytes that the second implementation gives. The prover sees the calls from inside: that
 * a C program finds them under these names and with these parameters in this order is what this program tests. */
#include "../include/vanhseak.h"
#include <stdio.h>
#include <string.h>

typedef VANHSEAK_CALL((*call));

static const char row[] = "SVA113 A388 350 E0412", nonce[7] = {3, 0, 0, 0, 'T', 'W', 'R'}, ad[] = "runway 34L closed";

static size_t make(call f, size_t bundle_len, uint8_t *message, size_t len) {
    uint8_t bundle[48];
    for (size_t i = 0; i < sizeof bundle; i++) bundle[i] = (uint8_t)i;
    return f(bundle, bundle_len, (const uint8_t *)nonce, sizeof nonce, (const uint8_t *)ad, sizeof ad - 1, message, len);
}

/* Seals the row and `spare` bytes, compares with `sealed`, opens again; then tries a bundle that is one byte short. */
static int same(const char *name, call seal, call open, size_t spare, const char *sealed) {
    uint8_t message[64] = {0};
    char hex[129] = "";
    const size_t len = sizeof row - 1 + spare;
    memcpy(message, row, sizeof row - 1);
    int ok = make(seal, 48, message, len) == 0;
    for (size_t i = 0; i < len; i++) sprintf(hex + 2 * i, "%02x", message[i]);
    ok = ok && strcmp(hex, sealed) == 0 && make(seal, 47, message, len) == 3 && make(open, 47, message, len) == 3;
    ok = ok && make(open, 48, message, len) == 0 && memcmp(message, row, sizeof row - 1) == 0;
    printf("%-20s %s\n", name, ok ? "as it should be" : "WRONG");
    return ok;
}

int main(void) {
    int right = same("aes128", vanhseak_aes128_seal, vanhseak_aes128_open, 0,
                     "c8e0e5ddb59c7909e3d46bc25dd2f1cf6d412ca3d4");
    right += same("aes128, with proof", vanhseak_aes128_seal_with_proof, vanhseak_aes128_open_with_proof, 16,
                  "46a34de39e0085010e78f5993568697e077082ed58b0577a7f86a79520f6fd68b921594576");
    right += same("speck128", vanhseak_speck128_seal, vanhseak_speck128_open, 0,
                  "5fc033d9c401542369a14d79d631517b1c637169ab");
    right += same("speck128, with proof", vanhseak_speck128_seal_with_proof, vanhseak_speck128_open_with_proof, 16,
                  "7fc103775780584b9c9bde6339eb640e920b6eae2466e20d160f58fe2cac04c5de7c9274c2");
    return right != 4;
}
