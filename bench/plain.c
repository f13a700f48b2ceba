#include "plain.h"
#include <string.h>

/* ---- AES-128, byte by byte ---- */

static uint8_t sbox[256], inverse_sbox[256];

static uint8_t times_x(uint8_t a) { return (uint8_t)((a << 1) ^ ((a >> 7) * 0x1b)); }

static uint8_t byte_product(uint8_t a, uint8_t b) {
    uint8_t sum = 0;
    for (; b; b >>= 1, a = times_x(a))
        if (b & 1) sum ^= a;
    return sum;
}

static uint8_t rotate_byte(uint8_t a, int n) { return (uint8_t)((a << n) | (a >> (8 - n))); }

static void make_tables(void) {
    if (sbox[0]) return;
    for (int a = 0; a < 256; a++) {
        uint8_t inverse = 0;
        for (int b = 1; b < 256 && a; b++)
            if (byte_product((uint8_t)a, (uint8_t)b) == 1) inverse = (uint8_t)b;
        uint8_t s = inverse ^ rotate_byte(inverse, 1) ^ rotate_byte(inverse, 2) ^ rotate_byte(inverse, 3) ^ rotate_byte(inverse, 4) ^ 0x63;
        sbox[a] = s;
        inverse_sbox[s] = (uint8_t)a;
    }
}

struct aes { uint8_t keys[176]; };

static void aes_expand(struct aes *c, const uint8_t *key) {
    make_tables();
    memcpy(c->keys, key, 16);
    uint8_t constant = 1;
    for (int i = 4; i < 44; i++) {
        uint8_t t[4];
        memcpy(t, c->keys + 4 * (i - 1), 4);
        if (i % 4 == 0) {
            uint8_t first = t[0];
            t[0] = sbox[t[1]] ^ constant; t[1] = sbox[t[2]]; t[2] = sbox[t[3]]; t[3] = sbox[first];
            constant = times_x(constant);
        }
        for (int j = 0; j < 4; j++) c->keys[4 * i + j] = c->keys[4 * (i - 4) + j] ^ t[j];
    }
}

static void add_key(uint8_t *s, const uint8_t *k) { for (int i = 0; i < 16; i++) s[i] ^= k[i]; }

static void aes_encrypt(const struct aes *c, uint8_t *s) {
    uint8_t t[16];
    add_key(s, c->keys);
    for (int round = 1; round <= 10; round++) {
        for (int i = 0; i < 16; i++) t[i] = sbox[s[5 * i % 16]];
        if (round == 10) memcpy(s, t, 16);
        else
            for (int col = 0; col < 16; col += 4)
                for (int r = 0; r < 4; r++) {
                    uint8_t a = t[col + r], b = t[col + (r + 1) % 4];
                    s[col + r] = times_x(a) ^ times_x(b) ^ b ^ t[col + (r + 2) % 4] ^ t[col + (r + 3) % 4];
                }
        add_key(s, c->keys + 16 * round);
    }
}

static void aes_decrypt(const struct aes *c, uint8_t *s) {
    uint8_t t[16];
    for (int round = 10; round >= 1; round--) {
        add_key(s, c->keys + 16 * round);
        if (round == 10) memcpy(t, s, 16);
        else
            for (int col = 0; col < 16; col += 4)
                for (int r = 0; r < 4; r++)
                    t[col + r] = byte_product(s[col + r], 14) ^ byte_product(s[col + (r + 1) % 4], 11)
                               ^ byte_product(s[col + (r + 2) % 4], 13) ^ byte_product(s[col + (r + 3) % 4], 9);
        for (int i = 0; i < 16; i++) s[5 * i % 16] = inverse_sbox[t[i]];
    }
    add_key(s, c->keys);
}

/* ---- Speck128/128 ---- */

struct speck { uint64_t keys[32]; };

static uint64_t right(uint64_t x, int n) { return (x >> n) | (x << (64 - n)); }
static uint64_t left(uint64_t x, int n) { return (x << n) | (x >> (64 - n)); }

static void speck_expand(struct speck *c, const uint8_t *key) {
    uint64_t k, m;
    memcpy(&k, key, 8);
    memcpy(&m, key + 8, 8);
    for (uint64_t i = 0; i < 32; i++) {
        c->keys[i] = k;
        m = (right(m, 8) + k) ^ i;
        k = left(k, 3) ^ m;
    }
}

static void speck_encrypt(const struct speck *c, uint8_t *s) {
    uint64_t a, b;
    memcpy(&b, s, 8);
    memcpy(&a, s + 8, 8);
    for (int i = 0; i < 32; i++) {
        a = (right(a, 8) + b) ^ c->keys[i];
        b = left(b, 3) ^ a;
    }
    memcpy(s, &b, 8);
    memcpy(s + 8, &a, 8);
}

static void speck_decrypt(const struct speck *c, uint8_t *s) {
    uint64_t a, b;
    memcpy(&b, s, 8);
    memcpy(&a, s + 8, 8);
    for (int i = 31; i >= 0; i--) {
        b = right(b ^ a, 3);
        a = left((a ^ c->keys[i]) - b, 8);
    }
    memcpy(s, &b, 8);
    memcpy(s + 8, &a, 8);
}

/* ---- either cipher ---- */

struct block_cipher { enum plain_cipher kind; struct aes aes; struct speck speck; };

static void expand(struct block_cipher *c, enum plain_cipher kind, const uint8_t *key) {
    c->kind = kind;
    if (kind == PLAIN_AES128) aes_expand(&c->aes, key); else speck_expand(&c->speck, key);
}
static void encrypt(const struct block_cipher *c, uint8_t *s) {
    if (c->kind == PLAIN_AES128) aes_encrypt(&c->aes, s); else speck_encrypt(&c->speck, s);
}
static void decrypt(const struct block_cipher *c, uint8_t *s) {
    if (c->kind == PLAIN_AES128) aes_decrypt(&c->aes, s); else speck_decrypt(&c->speck, s);
}

/* ---- the field and the hash ---- */

typedef unsigned __int128 element;

static element load(const uint8_t *b) { element e; memcpy(&e, b, 16); return e; }
static void store(uint8_t *b, element e) { memcpy(b, &e, 16); }
static element twice(element a) { return (a << 1) ^ ((a >> 127) ? 0x87 : 0); }

static element product(element a, element b) {
    element sum = 0;
    for (int i = 0; i < 128; i++, a >>= 1, b = twice(b))
        if (a & 1) sum ^= b;
    return sum;
}

static element hash(element tau, const uint8_t *m, size_t len) {
    size_t n = len / 16;
    uint8_t padded[16] = {0};
    memcpy(padded, m + 16 * n, len % 16);
    padded[len % 16] = 1;
    element sum = 0;
    for (size_t i = 0; i + 1 < n; i++) sum = product(tau, sum ^ load(m + 16 * i));
    sum = product(tau, sum ^ load(padded));
    return sum ^ load(m + 16 * (n - 1));
}

static void spread(uint8_t *m, size_t n, element r, element beta) {
    for (size_t i = 0; i + 1 < n; i++) {
        beta = twice(beta);
        store(m + 16 * i, load(m + 16 * i) ^ r ^ beta);
    }
}

static void hash_over(element tau, element beta, uint8_t *m, size_t len) {
    size_t n = len / 16;
    element r = hash(tau, m, len);
    spread(m, n, r, beta);
    store(m + 16 * (n - 1), r ^ beta);
}

static void unhash_over(element tau, element beta, uint8_t *m, size_t len) {
    size_t n = len / 16;
    element r = load(m + 16 * (n - 1)) ^ beta;
    spread(m, n, r, beta);
    store(m + 16 * (n - 1), 0);
    store(m + 16 * (n - 1), r ^ hash(tau, m, len));
}

/* ---- CMAC of the padded nonce, the padded associated data and the lengths, all whole blocks ---- */

static void double_block(uint8_t *b) {
    uint8_t carry = b[0] >> 7;
    for (int i = 0; i < 15; i++) b[i] = (uint8_t)((b[i] << 1) | (b[i + 1] >> 7));
    b[15] = (uint8_t)((b[15] << 1) ^ (carry * 0x87));
}

static void absorb(const struct block_cipher *c, uint8_t *state, const uint8_t *s, size_t len) {
    for (size_t i = 0; i < len; i += 16) {
        size_t part = len - i < 16 ? len - i : 16;
        for (size_t j = 0; j < part; j++) state[j] ^= s[i + j];
        encrypt(c, state);
    }
}

static element beta_one(const struct block_cipher *prf, const uint8_t *nonce, size_t nonce_len, const uint8_t *ad, size_t ad_len, size_t len) {
    uint8_t key[16] = {0}, state[16] = {0}, group[16] = {0};
    uint32_t lengths[3] = {(uint32_t)nonce_len, (uint32_t)ad_len, (uint32_t)len};
    encrypt(prf, key);
    double_block(key);
    absorb(prf, state, nonce, nonce_len);
    absorb(prf, state, ad, ad_len);
    memcpy(group, lengths, 12);
    for (int i = 0; i < 16; i++) state[i] ^= group[i] ^ key[i];
    encrypt(prf, state);
    return load(state);
}

/* ---- the mode ---- */

static void encipher(const struct block_cipher *blk, uint8_t *m, size_t len) {
    size_t n = len / 16, tail = len % 16;
    uint8_t *last = m + 16 * (n - 1);
    for (size_t i = 0; i < n; i++) encrypt(blk, m + 16 * i);
    if (tail) {
        for (size_t i = 0; i < tail; i++) m[16 * n + i] ^= last[i];
        encrypt(blk, last);
    }
}

static void decipher(const struct block_cipher *blk, uint8_t *m, size_t len) {
    size_t n = len / 16, tail = len % 16;
    uint8_t *last = m + 16 * (n - 1);
    if (tail) {
        decrypt(blk, last);
        for (size_t i = 0; i < tail; i++) m[16 * n + i] ^= last[i];
    }
    for (size_t i = 0; i < n; i++) decrypt(blk, m + 16 * i);
}

/* What a message is sealed or opened with. */
struct context { element tau, one; struct block_cipher blk; };

static void prepare(struct context *c, enum plain_cipher kind, const uint8_t *bundle, const uint8_t *nonce, size_t nonce_len,
                    const uint8_t *ad, size_t ad_len, size_t len) {
    struct block_cipher prf;
    expand(&prf, kind, bundle + 16);
    expand(&c->blk, kind, bundle + 32);
    c->tau = load(bundle);
    c->one = beta_one(&prf, nonce, nonce_len, ad, ad_len, len);
}

void plain_seal(enum plain_cipher kind, const uint8_t *bundle, const uint8_t *nonce, size_t nonce_len,
                const uint8_t *ad, size_t ad_len, uint8_t *m, size_t len) {
    struct context c;
    prepare(&c, kind, bundle, nonce, nonce_len, ad, ad_len, len);
    hash_over(c.tau, c.one, m, len);
    encipher(&c.blk, m, len);
    unhash_over(c.tau, twice(c.one), m, len);
}

void plain_open(enum plain_cipher kind, const uint8_t *bundle, const uint8_t *nonce, size_t nonce_len,
                const uint8_t *ad, size_t ad_len, uint8_t *m, size_t len) {
    struct context c;
    prepare(&c, kind, bundle, nonce, nonce_len, ad, ad_len, len);
    hash_over(c.tau, twice(c.one), m, len);
    decipher(&c.blk, m, len);
    unhash_over(c.tau, c.one, m, len);
}
