// Times the seals against OpenSSL and plain scalar C: the same work on the same buffers, in one run, in turn.
// Each time is the median of ROUNDS rounds of CALLS calls. All results are first compared with one another.
#include "plain.h"
#include <openssl/core_names.h>
#include <openssl/evp.h>
#include <stdio.h>
#include <stdlib.h>
#include <string.h>
#include <time.h>

#define ROUNDS 101
#define CALLS 400
#define LONGEST 1280

typedef struct { uint32_t inner[8], outer[8]; } seals_key;

uint32_t seals_turn(const uint8_t *key, size_t key_len, uint32_t counter, const uint8_t *nonce, size_t nonce_len, uint8_t *text, size_t len);
uint32_t seals_turn_scalar(const uint8_t *key, size_t key_len, uint32_t counter, const uint8_t *nonce, size_t nonce_len, uint8_t *text, size_t len);
uint32_t seals_sha256(const uint8_t *text, size_t len, uint8_t *out, size_t out_len);
uint32_t seals_hmac(const uint8_t *key, size_t key_len, const uint8_t *text, size_t len, uint8_t *out, size_t out_len);
void seals_prepare(const uint8_t *key, size_t key_len, seals_key *prepared);
uint32_t seals_sum(const seals_key *key, const uint8_t *text, size_t len, uint8_t *out, size_t out_len);

static uint8_t key[32], nonce[12], text[LONGEST], sum[32];
static EVP_CIPHER_CTX *cipher;
static EVP_MD_CTX *hash;
static EVP_MAC_CTX *mac_ready, *mac_fresh;
static seals_key prepared;

static void chacha_lanes(size_t n) { seals_turn(key, 32, 1, nonce, 12, text, n); }
static void chacha_scalar(size_t n) { seals_turn_scalar(key, 32, 1, nonce, 12, text, n); }
static void chacha_c(size_t n) { plain_chacha20(key, 1, nonce, text, n); }

static void chacha_openssl(size_t n)
{
    uint8_t iv[16] = {1};
    int done;
    memcpy(iv + 4, nonce, 12);
    EVP_EncryptInit_ex(cipher, NULL, NULL, key, iv);
    EVP_EncryptUpdate(cipher, text, &done, text, (int)n);
}

static void sha_rattle(size_t n) { seals_sha256(text, n, sum, 32); }
static void sha_c(size_t n) { plain_sha256(text, n, sum); }

static void sha_openssl(size_t n)
{
    EVP_DigestInit_ex(hash, NULL, NULL);
    EVP_DigestUpdate(hash, text, n);
    EVP_DigestFinal_ex(hash, sum, NULL);
}

static void hmac_rattle(size_t n) { seals_hmac(key, 32, text, n, sum, 32); }
static void hmac_prepared(size_t n) { seals_sum(&prepared, text, n, sum, 32); }
static void hmac_c(size_t n) { plain_hmac(key, text, n, sum); }

// With the key again each time, and with the key that it was given once.
static void hmac_openssl(size_t n)
{
    size_t done;
    EVP_MAC_init(mac_fresh, key, 32, NULL);
    EVP_MAC_update(mac_fresh, text, n);
    EVP_MAC_final(mac_fresh, sum, &done, 32);
}

static void hmac_openssl_ready(size_t n)
{
    size_t done;
    EVP_MAC_init(mac_ready, NULL, 0, NULL);
    EVP_MAC_update(mac_ready, text, n);
    EVP_MAC_final(mac_ready, sum, &done, 32);
}

typedef void (*work)(size_t);

static double now(void)
{
    struct timespec t;
    clock_gettime(CLOCK_MONOTONIC, &t);
    return t.tv_sec * 1e9 + t.tv_nsec;
}

static int by_size(const void *a, const void *b)
{
    double x = *(const double *)a, y = *(const double *)b;
    return x < y ? -1 : x > y;
}

// The medians of some pieces of work that are timed in turn, so that what disturbs one disturbs all.
static void medians(const work *works, int count, size_t n, double *out)
{
    static double times[8][ROUNDS];
    for (int r = 0; r < ROUNDS; r++)
        for (int w = 0; w < count; w++) {
            double from = now();
            for (int i = 0; i < CALLS; i++)
                works[w](n);
            times[w][r] = (now() - from) / CALLS;
        }
    for (int w = 0; w < count; w++) {
        qsort(times[w], ROUNDS, sizeof(double), by_size);
        out[w] = times[w][ROUNDS / 2];
    }
}

static void same_text(const char *name, work a, work b, size_t n)
{
    uint8_t first[LONGEST];
    memset(text, 7, sizeof text);
    a(n);
    memcpy(first, text, sizeof text);
    memset(text, 7, sizeof text);
    b(n);
    if (memcmp(first, text, sizeof text)) {
        printf("%s differs at %zu bytes\n", name, n);
        exit(1);
    }
}

static void same_sum(const char *name, work a, work b, size_t n)
{
    uint8_t first[32];
    a(n);
    memcpy(first, sum, 32);
    b(n);
    if (memcmp(first, sum, 32)) {
        printf("%s differs at %zu bytes\n", name, n);
        exit(1);
    }
}

static void compare_results(void)
{
    for (size_t n = 0; n <= LONGEST; n += n < 300 ? 1 : 49) {
        if (n > 0)
            same_text("ChaCha20, OpenSSL", chacha_c, chacha_openssl, n);
        same_text("ChaCha20, lanes", chacha_c, chacha_lanes, n);
        same_text("ChaCha20, scalar", chacha_c, chacha_scalar, n);
        same_sum("SHA-256", sha_c, sha_rattle, n);
        same_sum("SHA-256, OpenSSL", sha_c, sha_openssl, n);
        same_sum("HMAC", hmac_c, hmac_rattle, n);
        same_sum("HMAC, prepared", hmac_c, hmac_prepared, n);
        same_sum("HMAC, OpenSSL", hmac_c, hmac_openssl, n);
        same_sum("HMAC, OpenSSL, key given once", hmac_c, hmac_openssl_ready, n);
    }
}

int main(void)
{
    static const size_t sizes[3] = {64, 576, 1280};
    for (int i = 0; i < 32; i++)
        key[i] = (uint8_t)(3 * i + 1);
    for (int i = 0; i < 12; i++)
        nonce[i] = (uint8_t)(5 * i + 2);
    cipher = EVP_CIPHER_CTX_new();
    EVP_EncryptInit_ex(cipher, EVP_chacha20(), NULL, key, text);
    hash = EVP_MD_CTX_new();
    EVP_DigestInit_ex(hash, EVP_sha256(), NULL);
    EVP_MAC *hmac = EVP_MAC_fetch(NULL, "HMAC", NULL);
    OSSL_PARAM params[] = {OSSL_PARAM_construct_utf8_string(OSSL_MAC_PARAM_DIGEST, "SHA256", 0), OSSL_PARAM_END};
    mac_ready = EVP_MAC_CTX_new(hmac);
    mac_fresh = EVP_MAC_CTX_new(hmac);
    EVP_MAC_init(mac_ready, key, 32, params);
    EVP_MAC_init(mac_fresh, key, 32, params);
    seals_prepare(key, 32, &prepared);
    compare_results();

    printf("%-28s %6s %10s %10s %10s %8s %8s\n", "", "bytes", "ours ns", "plain C ns", "OpenSSL ns", "to C", "to SSL");
    for (int s = 0; s < 3; s++) {
        static const char *names[5] = {"ChaCha20, lanes", "ChaCha20, scalar", "SHA-256", "HMAC", "HMAC, key prepared"};
        static const work works[5][3] = {
            {chacha_lanes, chacha_c, chacha_openssl}, {chacha_scalar, chacha_c, chacha_openssl}, {sha_rattle, sha_c, sha_openssl},
            {hmac_rattle, hmac_c, hmac_openssl}, {hmac_prepared, hmac_c, hmac_openssl_ready}};
        for (int w = 0; w < 5; w++) {
            double t[3];
            medians(works[w], 3, sizes[s], t);
            printf("%-28s %6zu %10.0f %10.0f %10.0f %8.2f %8.2f\n", names[w], sizes[s], t[0], t[1], t[2], t[0] / t[1], t[0] / t[2]);
        }
    }
    return 0;
}
