/* Sealing and opening messages, and CMAC, with the proved library. Link libffi.a (see the README).
 *
 * Each call answers 0 where it is accepted, and else the number of a refusal (docs/REFUSALS.md): 3 for a bundle or key of
 * the wrong length, 4 for a nonce or associated data above 1,024 bytes, 6 for a message below 16 (not for CMAC) or above
 * 65,536 bytes, 10 for a message that is not genuine.
 * A declined call leaves every byte as it was, except that a message that is not genuine is all zero afterwards.
 * A pointer may not be null, even where its length is 0, and no two of the byte ranges may overlap. */
#ifndef VANHSEAK_H
#define VANHSEAK_H
#include <stddef.h>
#include <stdint.h>

#ifdef __cplusplus
extern "C" {
#endif

/* Sealing and opening work inside the message, whose length stays. The bundle is tau, the prf key and the blk key: 48
 * bytes for both ciphers. */
#define VANHSEAK_CALL(name) \
    size_t name(const uint8_t *bundle, size_t bundle_len, const uint8_t *nonce, size_t nonce_len, \
                const uint8_t *ad, size_t ad_len, uint8_t *message, size_t message_len)

VANHSEAK_CALL(vanhseak_aes128_seal);
VANHSEAK_CALL(vanhseak_aes128_open);
/* With proof: the last sixteen bytes of the message are spare, and are zero once it is opened. */
VANHSEAK_CALL(vanhseak_aes128_seal_with_proof);
VANHSEAK_CALL(vanhseak_aes128_open_with_proof);

VANHSEAK_CALL(vanhseak_speck128_seal);
VANHSEAK_CALL(vanhseak_speck128_open);
VANHSEAK_CALL(vanhseak_speck128_seal_with_proof);
VANHSEAK_CALL(vanhseak_speck128_open_with_proof);

/* CMAC (NIST SP 800-38B) of a message under a key of sixteen bytes: the whole code, sixteen bytes. */
size_t vanhseak_aes128_cmac(const uint8_t *key, size_t key_len, const uint8_t *message, size_t message_len, uint8_t code[16]);
size_t vanhseak_speck128_cmac(const uint8_t *key, size_t key_len, const uint8_t *message, size_t message_len, uint8_t code[16]);

#ifdef __cplusplus
}
#endif
#endif
