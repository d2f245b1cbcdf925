/* AES-128 by four tables of words each way, as a plain C program has it: what ours is measured against. */
#include "table_aes.h"
#include <string.h>

static uint8_t substitutes[256], originals[256];
static uint32_t mixed[4][256], unmixed[4][256];

static uint8_t product(uint8_t a, uint8_t b) {
    uint8_t sum = 0;
    for (; b; b >>= 1, a = (uint8_t)(a << 1) ^ (a & 0x80 ? 0x1B : 0))
        if (b & 1) sum ^= a;
    return sum;
}

static uint32_t turned(uint32_t word, int bits) { return bits ? word << bits | word >> (32 - bits) : word; }

static uint32_t word_of(const uint8_t *b) { uint32_t w; memcpy(&w, b, 4); return w; }

void table_aes_begin(void) {
    for (int a = 0; a < 256; a++) {
        int inverse = 0, s = 0;
        while (a && product((uint8_t)a, (uint8_t)inverse) != 1) inverse++;
        for (int i = 0; i < 8; i++)
            for (int j = 0; j < 6; j++) s ^= ((j < 5 ? inverse >> (j ? (i + 3 + j) % 8 : i) : 0x63 >> i) & 1) << i;
        substitutes[a] = (uint8_t)s;
        originals[s] = (uint8_t)a;
    }
    for (int a = 0; a < 256; a++) {
        uint8_t s = substitutes[a], o = originals[a];
        uint32_t m = product(s, 2) | s << 8 | s << 16 | (uint32_t)product(s, 3) << 24;
        uint32_t u = product(o, 14) | product(o, 9) << 8 | product(o, 13) << 16 | (uint32_t)product(o, 11) << 24;
        for (int k = 0; k < 4; k++) mixed[k][a] = turned(m, 8 * k), unmixed[k][a] = turned(u, 8 * k);
    }
}

void table_aes_keys(struct table_aes *t, const uint8_t key[16]) {
    uint32_t *k = t->keys, constant = 1;
    for (int i = 0; i < 4; i++) k[i] = word_of(key + 4 * i);
    for (int i = 4; i < 44; i++) {
        uint32_t w = k[i - 1];
        if (i % 4 == 0) {
            w = turned(w, 24);
            w = substitutes[w & 255] | substitutes[w >> 8 & 255] << 8 | substitutes[w >> 16 & 255] << 16 | (uint32_t)substitutes[w >> 24] << 24;
            w ^= constant;
            constant = product((uint8_t)constant, 2);
        }
        k[i] = k[i - 4] ^ w;
    }
    for (int i = 0; i < 44; i++)
        t->inverse_keys[i] = i < 4 || i >= 40 ? k[i]
            : unmixed[0][substitutes[k[i] & 255]] ^ unmixed[1][substitutes[k[i] >> 8 & 255]]
            ^ unmixed[2][substitutes[k[i] >> 16 & 255]] ^ unmixed[3][substitutes[k[i] >> 24]];
}

#define ROUND(T, k, a, b, c, d) (T[0][a & 255] ^ T[1][b >> 8 & 255] ^ T[2][c >> 16 & 255] ^ T[3][d >> 24] ^ (k))
#define LAST(S, k, a, b, c, d) ((S[a & 255] | S[b >> 8 & 255] << 8 | S[c >> 16 & 255] << 16 | (uint32_t)S[d >> 24] << 24) ^ (k))

static void encrypt(const struct table_aes *t, uint32_t s[4]) {
    const uint32_t *k = t->keys;
    uint32_t a = s[0] ^ k[0], b = s[1] ^ k[1], c = s[2] ^ k[2], d = s[3] ^ k[3];
    for (k += 4; k < t->keys + 40; k += 4) {
        uint32_t e = ROUND(mixed, k[0], a, b, c, d), f = ROUND(mixed, k[1], b, c, d, a);
        uint32_t g = ROUND(mixed, k[2], c, d, a, b), h = ROUND(mixed, k[3], d, a, b, c);
        a = e, b = f, c = g, d = h;
    }
    s[0] = LAST(substitutes, k[0], a, b, c, d), s[1] = LAST(substitutes, k[1], b, c, d, a);
    s[2] = LAST(substitutes, k[2], c, d, a, b), s[3] = LAST(substitutes, k[3], d, a, b, c);
}

static void decrypt(const struct table_aes *t, uint32_t s[4]) {
    const uint32_t *k = t->inverse_keys + 40;
    uint32_t a = s[0] ^ k[0], b = s[1] ^ k[1], c = s[2] ^ k[2], d = s[3] ^ k[3];
    for (k -= 4; k > t->inverse_keys; k -= 4) {
        uint32_t e = ROUND(unmixed, k[0], a, d, c, b), f = ROUND(unmixed, k[1], b, a, d, c);
        uint32_t g = ROUND(unmixed, k[2], c, b, a, d), h = ROUND(unmixed, k[3], d, c, b, a);
        a = e, b = f, c = g, d = h;
    }
    s[0] = LAST(originals, k[0], a, d, c, b), s[1] = LAST(originals, k[1], b, a, d, c);
    s[2] = LAST(originals, k[2], c, b, a, d), s[3] = LAST(originals, k[3], d, c, b, a);
}

void table_cbc_encrypt(const uint8_t key[16], const uint8_t iv[16], uint8_t *bytes, size_t len) {
    struct table_aes t;
    uint32_t s[4], p[4];
    table_aes_keys(&t, key);
    memcpy(s, iv, 16);
    for (size_t i = 0; i < len; i += 16) {
        memcpy(p, bytes + i, 16);
        for (int j = 0; j < 4; j++) s[j] ^= p[j];
        encrypt(&t, s);
        memcpy(bytes + i, s, 16);
    }
}

void table_cbc_decrypt(const uint8_t key[16], const uint8_t iv[16], uint8_t *bytes, size_t len) {
    struct table_aes t;
    uint32_t s[4], c[4], before[4];
    table_aes_keys(&t, key);
    memcpy(before, iv, 16);
    for (size_t i = 0; i < len; i += 16) {
        memcpy(c, bytes + i, 16);
        memcpy(s, c, 16);
        decrypt(&t, s);
        for (int j = 0; j < 4; j++) s[j] ^= before[j];
        memcpy(bytes + i, s, 16);
        memcpy(before, c, 16);
    }
}

/* OCB (RFC 7253) of whole blocks, with a nonce of 12 bytes, no associated data and a tag of 16 bytes. */
typedef union { uint8_t b[16]; uint32_t w[4]; } block;

static block doubled(block s) {
    block d;
    for (int i = 0; i < 16; i++) d.b[i] = (uint8_t)(s.b[i] << 1 | (i < 15 ? s.b[i + 1] >> 7 : 0));
    if (s.b[0] >> 7) d.b[15] ^= 0x87;
    return d;
}

static void add(block *to, const block *of) {
    for (int i = 0; i < 4; i++) to->w[i] ^= of->w[i];
}

static block first_offset(const struct table_aes *t, const uint8_t nonce[12]) {
    uint8_t stretch[24];
    block top = {{0, 0, 0, 1}}, offset;
    memcpy(top.b + 4, nonce, 12);
    int bottom = top.b[15] & 63;
    top.b[15] &= 0xC0;
    encrypt(t, top.w);
    memcpy(stretch, top.b, 16);
    for (int i = 0; i < 8; i++) stretch[16 + i] = top.b[i] ^ top.b[i + 1];
    for (int i = 0; i < 16; i++) {
        int at = i + bottom / 8, shift = bottom % 8;
        offset.b[i] = (uint8_t)((stretch[at] << 8 | (shift ? stretch[at + 1] : 0)) >> (8 - shift));
    }
    return offset;
}

void table_ocb(int decrypts, const uint8_t key[16], const uint8_t nonce[12], uint8_t *bytes, size_t len, uint8_t tag[16]) {
    struct table_aes t;
    block masks[16], star = {{0}}, dollar, offset, sum = {{0}}, b;
    table_aes_keys(&t, key);
    encrypt(&t, star.w);
    dollar = doubled(star);
    masks[0] = doubled(dollar);
    for (int i = 1; i < 16; i++) masks[i] = doubled(masks[i - 1]);
    offset = first_offset(&t, nonce);
    for (size_t i = 1; i <= len / 16; i++) {
        add(&offset, &masks[__builtin_ctzl(i)]);
        memcpy(b.b, bytes + 16 * (i - 1), 16);
        if (!decrypts) add(&sum, &b);
        add(&b, &offset);
        if (decrypts) decrypt(&t, b.w);
        else encrypt(&t, b.w);
        add(&b, &offset);
        if (decrypts) add(&sum, &b);
        memcpy(bytes + 16 * (i - 1), b.b, 16);
    }
    add(&sum, &offset);
    add(&sum, &dollar);
    encrypt(&t, sum.w);
    memcpy(tag, sum.b, 16);
}
