/* Saturnin's block cipher, CTR-Cascade, Short and Hash: the proved library, for programs in C.
 *
 * Every call answers 0 where it is done, and else the number of its refusal:
 *    1  a length is not the one that is stated here
 *    2  a nonce, associated data, a message or a text is over its limit
 *    3  a separator above 15, or a count of super-rounds outside 10 to 31
 *   11  the tag differs
 *   12  the block of Short has another nonce or no padding
 * Where several apply, the first of these that does. A refused call leaves every buffer as it was, but for 11 and 12, which
 * make the buffer for the message zero.
 *
 * A text is a pointer and its length in bytes. No pointer is NULL, also where the length is 0, and a buffer that a call writes
 * to overlaps nothing else that the call is handed. All lengths but these are checked: nothing is read or written beyond them.
 * The calls keep no state and use no heap, and any number of threads may make them at once.
 */
#ifndef SATURNIN_H
#define SATURNIN_H

#include <stddef.h>
#include <stdint.h>

#ifdef __cplusplus
extern "C" {
#endif

/* The block of 32 bytes, in its own buffer, by a key of 32 bytes, a separator of 0 to 15 and 10 to 31 super-rounds. */
uint8_t saturnin_encrypt(const uint8_t *key, size_t key_length, uint8_t separator, uint8_t super_rounds,
                         uint8_t *block, size_t block_length);

/* And back: into the only block of 32 bytes that saturnin_encrypt takes to the given one. */
uint8_t saturnin_decrypt(const uint8_t *key, size_t key_length, uint8_t separator, uint8_t super_rounds,
                         uint8_t *block, size_t block_length);

/* The digest, 32 bytes, of a message of at most 65,536 bytes. */
uint8_t saturnin_hash(const uint8_t *message, size_t message_length, uint8_t *digest, size_t digest_length);

/* CTR-Cascade. The key has 32 bytes, the nonce at most 20; associated data and message have at most 65,536 each. The text is as
 * long as the message, and the tag has 32 bytes. A nonce must never be used twice with one key. */
uint8_t saturnin_seal(const uint8_t *key, size_t key_length, const uint8_t *nonce, size_t nonce_length,
                      const uint8_t *associated, size_t associated_length, const uint8_t *message, size_t message_length,
                      uint8_t *text, size_t text_length, uint8_t *tag, size_t tag_length);

/* Gives the message exactly where sealing it under the same key, nonce and associated data gives this text and this tag. */
uint8_t saturnin_open(const uint8_t *key, size_t key_length, const uint8_t *nonce, size_t nonce_length,
                      const uint8_t *associated, size_t associated_length, const uint8_t *text, size_t text_length,
                      const uint8_t *tag, size_t tag_length, uint8_t *message, size_t message_length);

/* Short: a message of at most 15 bytes under a nonce of 16, as one block of 32 bytes. */
uint8_t saturnin_short_seal(const uint8_t *key, size_t key_length, const uint8_t *nonce, size_t nonce_length,
                            const uint8_t *message, size_t message_length, uint8_t *block, size_t block_length);

/* Gives the message and then zeros, in a buffer of 15 bytes, and its length; a refusal leaves 0 in the length. */
uint8_t saturnin_short_open(const uint8_t *key, size_t key_length, const uint8_t *nonce, size_t nonce_length,
                            const uint8_t *block, size_t block_length, uint8_t *message, size_t message_buffer_length,
                            size_t *length);

#ifdef __cplusplus
}
#endif

#endif
