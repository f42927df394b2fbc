// Plain scalar C: ChaCha20 of RFC 8439 and SHA-256 of RFC 6234, as the RFCs write them.
#include "plain.h"
#include <string.h>

static uint32_t rotl(uint32_t x, int n) { return (x << n) | (x >> (32 - n)); }
static uint32_t rotr(uint32_t x, int n) { return (x >> n) | (x << (32 - n)); }

static uint32_t load_le(const uint8_t *p)
{
    return (uint32_t)p[0] | (uint32_t)p[1] << 8 | (uint32_t)p[2] << 16 | (uint32_t)p[3] << 24;
}

static uint32_t load_be(const uint8_t *p)
{
    return (uint32_t)p[3] | (uint32_t)p[2] << 8 | (uint32_t)p[1] << 16 | (uint32_t)p[0] << 24;
}

#define QUARTER(a, b, c, d)                     \
    do {                                        \
        a += b; d ^= a; d = rotl(d, 16);        \
        c += d; b ^= c; b = rotl(b, 12);        \
        a += b; d ^= a; d = rotl(d, 8);         \
        c += d; b ^= c; b = rotl(b, 7);         \
    } while (0)

static void chacha20_block(const uint32_t start[16], uint8_t out[64])
{
    uint32_t s[16];
    memcpy(s, start, sizeof s);
    for (int i = 0; i < 10; i++) {
        QUARTER(s[0], s[4], s[8], s[12]);
        QUARTER(s[1], s[5], s[9], s[13]);
        QUARTER(s[2], s[6], s[10], s[14]);
        QUARTER(s[3], s[7], s[11], s[15]);
        QUARTER(s[0], s[5], s[10], s[15]);
        QUARTER(s[1], s[6], s[11], s[12]);
        QUARTER(s[2], s[7], s[8], s[13]);
        QUARTER(s[3], s[4], s[9], s[14]);
    }
    for (int i = 0; i < 16; i++) {
        uint32_t w = s[i] + start[i];
        out[4 * i] = w & 0xff;
        out[4 * i + 1] = w >> 8 & 0xff;
        out[4 * i + 2] = w >> 16 & 0xff;
        out[4 * i + 3] = w >> 24;
    }
}

void plain_chacha20(const uint8_t key[32], uint32_t counter, const uint8_t nonce[12], uint8_t *text, size_t len)
{
    uint32_t start[16] = {0x61707865, 0x3320646e, 0x79622d32, 0x6b206574};
    for (int i = 0; i < 8; i++)
        start[4 + i] = load_le(key + 4 * i);
    for (int i = 0; i < 3; i++)
        start[13 + i] = load_le(nonce + 4 * i);
    for (size_t at = 0; at < len; at += 64) {
        uint8_t stream[64];
        size_t n = len - at < 64 ? len - at : 64;
        start[12] = counter++;
        chacha20_block(start, stream);
        for (size_t i = 0; i < n; i++)
            text[at + i] ^= stream[i];
    }
}

static const uint32_t K[64] = {
    0x428a2f98, 0x71374491, 0xb5c0fbcf, 0xe9b5dba5, 0x3956c25b, 0x59f111f1, 0x923f82a4, 0xab1c5ed5, 0xd807aa98, 0x12835b01, 0x243185be, 0x550c7dc3, 0x72be5d74,
    0x80deb1fe, 0x9bdc06a7, 0xc19bf174, 0xe49b69c1, 0xefbe4786, 0x0fc19dc6, 0x240ca1cc, 0x2de92c6f, 0x4a7484aa, 0x5cb0a9dc, 0x76f988da, 0x983e5152, 0xa831c66d,
    0xb00327c8, 0xbf597fc7, 0xc6e00bf3, 0xd5a79147, 0x06ca6351, 0x14292967, 0x27b70a85, 0x2e1b2138, 0x4d2c6dfc, 0x53380d13, 0x650a7354, 0x766a0abb, 0x81c2c92e,
    0x92722c85, 0xa2bfe8a1, 0xa81a664b, 0xc24b8b70, 0xc76c51a3, 0xd192e819, 0xd6990624, 0xf40e3585, 0x106aa070, 0x19a4c116, 0x1e376c08, 0x2748774c, 0x34b0bcb5,
    0x391c0cb3, 0x4ed8aa4a, 0x5b9cca4f, 0x682e6ff3, 0x748f82ee, 0x78a5636f, 0x84c87814, 0x8cc70208, 0x90befffa, 0xa4506ceb, 0xbef9a3f7, 0xc67178f2};

static const uint32_t H0[8] = {0x6a09e667, 0xbb67ae85, 0x3c6ef372, 0xa54ff53a, 0x510e527f, 0x9b05688c, 0x1f83d9ab, 0x5be0cd19};

static void compress(uint32_t h[8], const uint8_t *block)
{
    uint32_t w[64];
    for (int t = 0; t < 16; t++)
        w[t] = load_be(block + 4 * t);
    for (int t = 16; t < 64; t++) {
        uint32_t s0 = rotr(w[t - 15], 7) ^ rotr(w[t - 15], 18) ^ (w[t - 15] >> 3);
        uint32_t s1 = rotr(w[t - 2], 17) ^ rotr(w[t - 2], 19) ^ (w[t - 2] >> 10);
        w[t] = s1 + w[t - 7] + s0 + w[t - 16];
    }
    uint32_t a = h[0], b = h[1], c = h[2], d = h[3], e = h[4], f = h[5], g = h[6], i = h[7];
    for (int t = 0; t < 64; t++) {
        uint32_t t1 = i + (rotr(e, 6) ^ rotr(e, 11) ^ rotr(e, 25)) + ((e & f) ^ (~e & g)) + K[t] + w[t];
        uint32_t t2 = (rotr(a, 2) ^ rotr(a, 13) ^ rotr(a, 22)) + ((a & b) ^ (a & c) ^ (b & c));
        i = g; g = f; f = e; e = d + t1; d = c; c = b; b = a; a = t1 + t2;
    }
    h[0] += a; h[1] += b; h[2] += c; h[3] += d; h[4] += e; h[5] += f; h[6] += g; h[7] += i;
}

typedef struct { uint32_t h[8]; uint8_t block[64]; uint64_t total; } hasher;

static void begin(hasher *s) { memcpy(s->h, H0, sizeof H0); s->total = 0; }

static void update(hasher *s, const uint8_t *p, size_t n)
{
    size_t fill = s->total % 64;
    s->total += n;
    if (fill && n >= 64 - fill) {
        memcpy(s->block + fill, p, 64 - fill);
        compress(s->h, s->block);
        p += 64 - fill; n -= 64 - fill; fill = 0;
    }
    if (!fill)
        for (; n >= 64; p += 64, n -= 64)
            compress(s->h, p);
    memcpy(s->block + fill, p, n);
}

static void finish(hasher *s, uint8_t sum[32])
{
    uint64_t bits = 8 * s->total;
    size_t fill = s->total % 64;
    s->block[fill++] = 0x80;
    if (fill > 56) {
        memset(s->block + fill, 0, 64 - fill);
        compress(s->h, s->block);
        fill = 0;
    }
    memset(s->block + fill, 0, 56 - fill);
    for (int i = 0; i < 8; i++)
        s->block[56 + i] = bits >> (56 - 8 * i) & 0xff;
    compress(s->h, s->block);
    for (int i = 0; i < 8; i++)
        for (int j = 0; j < 4; j++)
            sum[4 * i + j] = s->h[i] >> (24 - 8 * j) & 0xff;
}

void plain_sha256(const uint8_t *text, size_t len, uint8_t sum[32])
{
    hasher s;
    begin(&s);
    update(&s, text, len);
    finish(&s, sum);
}

void plain_hmac(const uint8_t key[32], const uint8_t *text, size_t len, uint8_t sum[32])
{
    uint8_t inner[64], outer[64];
    hasher s;
    for (int i = 0; i < 64; i++) {
        uint8_t k = i < 32 ? key[i] : 0;
        inner[i] = k ^ 0x36;
        outer[i] = k ^ 0x5c;
    }
    begin(&s);
    update(&s, inner, 64);
    update(&s, text, len);
    finish(&s, sum);
    begin(&s);
    update(&s, outer, 64);
    update(&s, sum, 32);
    finish(&s, sum);
}
