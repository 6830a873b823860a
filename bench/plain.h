/* What the benchmark calls of the plain C. */
#ifndef PLAIN_H
#define PLAIN_H

#include <stddef.h>
#include <stdint.h>

void plain_hash(const uint8_t *message, size_t n, uint8_t digest[32]);
void plain_seal(const uint8_t *key, const uint8_t *nonce, size_t nonce_n, const uint8_t *associated, size_t associated_n,
                const uint8_t *message, size_t n, uint8_t *out, uint8_t tag[32]);
int plain_open(const uint8_t *key, const uint8_t *nonce, size_t nonce_n, const uint8_t *associated, size_t associated_n,
               const uint8_t *text, size_t n, const uint8_t tag[32], uint8_t *out);

#endif
