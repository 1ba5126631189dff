/* reference.h: a second implementation of the gateway and the sender, in plain C, written from the documents alone. The tests run it beside the
 * library, and the benchmark measures it as the plain C to compare with. */
#ifndef REFERENCE_H
#define REFERENCE_H
#include "crisp.h"
#include "report.h"

/* Magma and its modes: a key is eight words. */
void ref_key(const uint8_t bytes[32], uint32_t key[8]);
uint64_t ref_block(const uint32_t key[8], uint64_t block);
uint64_t ref_check(const uint32_t key[8], const uint8_t *bytes, size_t n);
void ref_counter(const uint32_t key[8], uint32_t iv, const uint8_t *bytes, size_t n, uint8_t *out);

/* The derived keys of suite 1 or 241, or the check key alone of suite 2 or 242. */
void ref_keys(const uint32_t base[8], int suite, int edition, const uint8_t *source, size_t source_len, uint64_t seqnum, uint32_t check[8],
              uint32_t cipher[8]);

struct crisp_answer ref_install(uint8_t *table, uint8_t flag, const uint8_t *keyid, size_t keyid_len, const uint8_t *source, size_t source_len,
                                uint8_t suite, uint8_t edition, const uint8_t *key, size_t key_len, uint64_t size, uint64_t start);
struct crisp_answer ref_remove(uint8_t *table, size_t slot);
struct crisp_answer ref_change(uint8_t *table, size_t slot, uint8_t flag, const uint8_t *keyid, size_t keyid_len, const uint8_t *source,
                               size_t source_len, uint8_t suite, uint8_t edition, const uint8_t *key, size_t key_len, uint64_t size, uint64_t start);
struct crisp_answer ref_receive(uint8_t *table, const uint8_t *message, size_t message_len, const uint8_t *source, size_t source_len,
                                uint8_t *out, size_t out_len);
struct crisp_answer ref_protect(struct crisp_sender *sender, const uint8_t *payload, size_t payload_len, uint8_t *out, size_t out_len);
struct crisp_answer ref_listing(const uint8_t *table, size_t slot, uint8_t *out, size_t out_len);
struct crisp_answer ref_load(uint8_t *table, const uint8_t *text, size_t text_len);

/* Captures. */
uint64_t ref_capture_order(const uint8_t *file, size_t file_len);
struct crisp_record ref_capture_record(const uint8_t *file, size_t file_len, uint64_t order, size_t at);
struct capture_summary ref_report(uint8_t *table, const uint8_t *file, size_t file_len, uint8_t *out, size_t out_len);
#endif
