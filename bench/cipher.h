/* cipher.h: the functions of libcipher_c.a (`rt lib --cpu x86-64` in crates/cipher_c): the cipher, its modes and the derived keys,
 * each by itself, to be measured and compared. A key is eight words, the first the key's first four bytes. */
#ifndef CIPHER_H
#define CIPHER_H
#include <stdbool.h>
#include <stddef.h>
#include <stdint.h>

struct cipher_keys {
    uint32_t check[8];
    uint32_t cipher[8];
};

struct cipher_key {
    uint32_t check[8];
};

uint64_t cipher_block(const uint32_t key[8], uint64_t block);
uint64_t cipher_check(const uint32_t key[8], const uint8_t *bytes, size_t n);                              /* all 64 bits */
bool cipher_counter(const uint32_t key[8], uint32_t iv, const uint8_t *bytes, size_t n, uint8_t out[2048]); /* n at most 2,048 */
struct cipher_keys cipher_keys_1(const uint32_t base[8], uint8_t edition, const uint8_t source[12], uint64_t seqnum);
struct cipher_key cipher_key_2(const uint32_t base[8], const uint8_t source[12], uint64_t seqnum);
#endif
