// Plain scalar C: ChaCha20 of RFC 8439 and SHA-256 of RFC 6234, as the RFCs write them.
#ifndef PLAIN_H
#define PLAIN_H
#include <stddef.h>
#include <stdint.h>

void plain_chacha20(const uint8_t key[32], uint32_t counter, const uint8_t nonce[12], uint8_t *text, size_t len);
void plain_sha256(const uint8_t *text, size_t len, uint8_t sum[32]);
void plain_hmac(const uint8_t key[32], const uint8_t *text, size_t len, uint8_t sum[32]);

#endif
