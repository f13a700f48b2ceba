/* A plain implementation of the same mode, written for reading and not for speed tricks, to measure against. */
#ifndef PLAIN_H
#define PLAIN_H
#include <stddef.h>
#include <stdint.h>

enum plain_cipher { PLAIN_AES128, PLAIN_SPECK128 };

/* Seals or opens a message of at least sixteen bytes in place. The bundle has 48 bytes: tau, prf key, blk key. */
void plain_seal(enum plain_cipher cipher, const uint8_t *bundle, const uint8_t *nonce, size_t nonce_len,
                const uint8_t *ad, size_t ad_len, uint8_t *message, size_t len);
void plain_open(enum plain_cipher cipher, const uint8_t *bundle, const uint8_t *nonce, size_t nonce_len,
                const uint8_t *ad, size_t ad_len, uint8_t *message, size_t len);
#endif
