/* report.h: the function of libreport_c.a (`rt lib --cpu x86-64` in crates/report_c): a capture read on a table, with the lines
 * that document 02 prints, to be compared and measured. */
#ifndef REPORT_H
#define REPORT_H
#include <stdbool.h>
#include <stddef.h>
#include <stdint.h>

/* room that the text has to have */
enum { CAPTURE_TEXT = 131072 };

struct capture_summary {
    uint64_t reply;     /* 0, 1 or 17 */
    size_t length;      /* of the text */
    size_t records;
    bool cut;           /* whether the last record ran past the end */
};

struct capture_summary capture_report(uint8_t *table, const uint8_t *file, size_t file_len, uint8_t *out, size_t out_len);
#endif
