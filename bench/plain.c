/* Saturnin, its Hash and its CTR-Cascade in plain C, in eight 32-bit words, written from the specification: what the proved
 * library is measured against. It checks no lengths: its callers hand in what fits. */
#include "plain.h"

#include <string.h>

/* RC0 in the lower half and RC1 in the upper one, of separators 1 to 6 with 10 super-rounds and 7 and 8 with 16. */
static const uint32_t CONSTANTS_10[6][10] = {
    { 0x4eb026c2, 0x90595303, 0xaa8fe632, 0xfe928a92, 0x4115a419, 0x93539532, 0x5db1cc4e, 0x541515ca, 0xbd1f55a8, 0x5a6e1a0d },
    { 0x4e4526b5, 0xa3565ff0, 0x0f8f20d8, 0x0b54bee1, 0x7d1a6c9d, 0x17a6280a, 0xaa46c986, 0xc1199062, 0x182c5cde, 0xa00d53fe },
    { 0x4e162698, 0xb2535ba1, 0x6c8f9d65, 0x5816ad30, 0x691fd4fa, 0x6bf5bcf9, 0xf8eb3525, 0xb21decfa, 0x7b3da417, 0xf62c94b4 },
    { 0x4faf265b, 0xc5484616, 0x45dcad21, 0xe08bd607, 0x0504fdb8, 0x1e1f5257, 0x45fbc216, 0xeb529b1f, 0x52194e32, 0x5498c018 },
    { 0x4ffc2676, 0xd44d4247, 0x26dc109c, 0xb3c9c5d6, 0x110145df, 0x624cc6a4, 0x17563eb5, 0x9856e787, 0x3108b6fb, 0x02b90752 },
    { 0x4f092601, 0xe7424eb4, 0x83dcd676, 0x460ff1a5, 0x2d0e8d5b, 0xe6b97b9c, 0xe0a13b7d, 0x0d5a622f, 0x943bbf8d, 0xf8da4ea1 },
};
static const uint32_t CONSTANTS_16[2][16] = {
    { 0x3fba180c, 0x563ab9ab, 0x125ea5ef, 0x859da26c, 0xb8cf779b, 0x7d4de793, 0x07efb49f, 0x8d525306, 0x1e08e6ab, 0x41729f87, 0x8c4aef0a, 0x4aa0c9a7, 0xd93a95ef, 0xbb00d2af, 0xb62c5bf0, 0x386d94d8 },
    { 0x3c9b19a7, 0xa9098694, 0x23f878da, 0xa7b647d3, 0x74fc9d78, 0xeacaae11, 0x2f31a677, 0x4cc8c054, 0x2f51ca05, 0x5268f195, 0x4f5b8a2b, 0xf614b4ac, 0xf1d95401, 0x764d2568, 0x6a493611, 0x8eef9c3e },
};

/* Word j holds register j, and register j + 8 in its upper half. */
static inline void load(uint32_t w[8], const uint8_t *b) {
    for (int j = 0; j < 8; j++)
        w[j] = (uint32_t)b[2 * j] | (uint32_t)b[2 * j + 1] << 8 | (uint32_t)b[2 * j + 16] << 16 |
               (uint32_t)b[2 * j + 17] << 24;
}

static inline void store(uint8_t *b, const uint32_t w[8]) {
    for (int j = 0; j < 8; j++) {
        b[2 * j] = (uint8_t)w[j];
        b[2 * j + 1] = (uint8_t)(w[j] >> 8);
        b[2 * j + 16] = (uint8_t)(w[j] >> 16);
        b[2 * j + 17] = (uint8_t)(w[j] >> 24);
    }
}

static inline uint32_t turned(uint32_t x, int n) { return x << n | x >> (32 - n); }

static inline void sigma(uint32_t *a, uint32_t *b, uint32_t *c, uint32_t *d) {
    *a ^= *b & *c;
    *b ^= *a | *d;
    *d ^= *b | *c;
    *c ^= *b & *d;
    *b ^= *a | *c;
    *a ^= *b | *d;
}

static inline void s_boxes(uint32_t w[8]) {
    uint32_t a = w[0], b = w[1], c = w[2], d = w[3];
    sigma(&a, &b, &c, &d);
    w[0] = b, w[1] = c, w[2] = d, w[3] = a;
    a = w[4], b = w[5], c = w[6], d = w[7];
    sigma(&a, &b, &c, &d);
    w[4] = d, w[5] = b, w[6] = a, w[7] = c;
}

static inline void alpha(uint32_t w[4]) {
    uint32_t a = w[0];
    w[0] = w[1], w[1] = w[2], w[2] = w[3], w[3] = a ^ w[0];
}

static inline void columns(uint32_t w[8]) {
    for (int j = 0; j < 4; j++) w[j] ^= w[4 + j];
    alpha(w + 4);
    for (int j = 0; j < 4; j++) w[4 + j] ^= turned(w[j], 16);
    alpha(w);
    alpha(w);
    for (int j = 0; j < 4; j++) w[j] ^= w[4 + j];
    for (int j = 0; j < 4; j++) w[4 + j] ^= turned(w[j], 16);
}

/* Rows 0 and 2, which are words 0 to 3, and rows 1 and 3, words 4 to 7, turn in groups of four bits, or whole. */
static inline void slices(uint32_t w[8]) {
    for (int j = 0; j < 4; j++) {
        w[j] = (w[j] & 0xffff) | (w[j] & 0x33330000) << 2 | (w[j] & 0xcccc0000) >> 2;
        uint32_t x = w[4 + j];
        w[4 + j] = (x & 0x00007777) << 1 | (x & 0x00008888) >> 3 | (x & 0x11110000) << 3 | (x & 0xeeee0000) >> 1;
    }
}

static inline void slices_back(uint32_t w[8]) {
    for (int j = 0; j < 4; j++) {
        w[j] = (w[j] & 0xffff) | (w[j] & 0x33330000) << 2 | (w[j] & 0xcccc0000) >> 2;
        uint32_t x = w[4 + j];
        w[4 + j] = (x & 0x00001111) << 3 | (x & 0x0000eeee) >> 1 | (x & 0x77770000) << 1 | (x & 0x88880000) >> 3;
    }
}

static inline void sheets(uint32_t w[8]) {
    for (int j = 0; j < 4; j++) {
        w[j] = (w[j] & 0xffff) | (w[j] & 0x00ff0000) << 8 | (w[j] & 0xff000000) >> 8;
        uint32_t x = w[4 + j];
        w[4 + j] = (x & 0x00000fff) << 4 | (x & 0x0000f000) >> 12 | (x & 0x000f0000) << 12 | (x & 0xfff00000) >> 4;
    }
}

static inline void sheets_back(uint32_t w[8]) {
    for (int j = 0; j < 4; j++) {
        w[j] = (w[j] & 0xffff) | (w[j] & 0x00ff0000) << 8 | (w[j] & 0xff000000) >> 8;
        uint32_t x = w[4 + j];
        w[4 + j] = (x & 0x0000000f) << 12 | (x & 0x0000fff0) >> 4 | (x & 0x0fff0000) << 4 | (x & 0xf0000000) >> 12;
    }
}

static inline void add(uint32_t w[8], const uint32_t k[8]) {
    for (int j = 0; j < 8; j++) w[j] ^= k[j];
}

static void encrypt(uint8_t *out, const uint8_t *key, const uint32_t *constants, int rounds, const uint8_t *block) {
    uint32_t k[8], turned_k[8], w[8];
    load(k, key);
    load(w, block);
    for (int j = 0; j < 8; j++) turned_k[j] = (k[j] & 0x001f001f) << 11 | (k[j] >> 5 & 0x07ff07ff);
    add(w, k);
    for (int i = 0; i < rounds; i += 2) {
        s_boxes(w);
        columns(w);
        s_boxes(w);
        slices(w);
        columns(w);
        slices_back(w);
        w[0] ^= constants[i];
        add(w, turned_k);
        s_boxes(w);
        columns(w);
        s_boxes(w);
        sheets(w);
        columns(w);
        sheets_back(w);
        w[0] ^= constants[i + 1];
        add(w, k);
    }
    store(out, w);
}

static void encrypt_by(uint8_t *out, const uint8_t *key, int separator, const uint8_t *block) {
    if (separator < 7)
        encrypt(out, key, CONSTANTS_10[separator - 1], 10, block);
    else
        encrypt(out, key, CONSTANTS_16[separator - 7], 16, block);
}

static void link_block(uint8_t value[32], int separator, const uint8_t *block) {
    uint8_t out[32];
    encrypt_by(out, value, separator, block);
    for (int i = 0; i < 32; i++) value[i] = block[i] ^ out[i];
}

static void chain(uint8_t value[32], int separator, const uint8_t *bytes, size_t n) {
    uint8_t tail[32] = {0};
    for (; n >= 32; bytes += 32, n -= 32) link_block(value, separator, bytes);
    memcpy(tail, bytes, n);
    tail[n] = 0x80;
    link_block(value, separator + 1, tail);
}

static void counter_block(uint8_t block[32], const uint8_t *nonce, size_t n, uint32_t counter) {
    memset(block, 0, 32);
    memcpy(block, nonce, n);
    block[n] = 0x80;
    for (int i = 0; i < 4; i++) block[28 + i] ^= (uint8_t)(counter >> (24 - 8 * i));
}

static void ctr(const uint8_t *key, const uint8_t *nonce, size_t nonce_n, const uint8_t *in, size_t n, uint8_t *out) {
    uint8_t block[32], stream[32];
    for (uint32_t counter = 1; n > 0; counter++) {
        size_t m = n < 32 ? n : 32;
        counter_block(block, nonce, nonce_n, counter);
        encrypt_by(stream, key, 1, block);
        for (size_t i = 0; i < m; i++) out[i] = in[i] ^ stream[i];
        in += m, out += m, n -= m;
    }
}

static void cascade(uint8_t tag[32], const uint8_t *key, const uint8_t *nonce, size_t nonce_n, const uint8_t *associated,
                    size_t associated_n, const uint8_t *text, size_t n) {
    uint8_t block[32];
    counter_block(block, nonce, nonce_n, 0);
    memcpy(tag, key, 32);
    link_block(tag, 2, block);
    chain(tag, 2, associated, associated_n);
    chain(tag, 4, text, n);
}

void plain_hash(const uint8_t *message, size_t n, uint8_t digest[32]) {
    memset(digest, 0, 32);
    chain(digest, 7, message, n);
}

void plain_seal(const uint8_t *key, const uint8_t *nonce, size_t nonce_n, const uint8_t *associated, size_t associated_n,
                const uint8_t *message, size_t n, uint8_t *out, uint8_t tag[32]) {
    ctr(key, nonce, nonce_n, message, n, out);
    cascade(tag, key, nonce, nonce_n, associated, associated_n, out, n);
}

int plain_open(const uint8_t *key, const uint8_t *nonce, size_t nonce_n, const uint8_t *associated, size_t associated_n,
               const uint8_t *text, size_t n, const uint8_t tag[32], uint8_t *out) {
    uint8_t own[32], difference = 0;
    cascade(own, key, nonce, nonce_n, associated, associated_n, text, n);
    for (int i = 0; i < 32; i++) difference |= own[i] ^ tag[i];
    if (difference != 0) {
        memset(out, 0, n);
        return 11;
    }
    ctr(key, nonce, nonce_n, text, n, out);
    return 0;
}
