/* The text check of Healdrip: a map file in, a report out.
 *
 * Link libhealdrip.a (x86-64 Linux), which `rt lib` in crates/healdrip/ writes to out/ there and `./install DIR` copies to DIR/lib/. */
#ifndef HEALDRIP_H
#define HEALDRIP_H

#include <stddef.h>
#include <stdint.h>

#ifdef __cplusplus
extern "C" {
#endif

/* Checks the map file in the text_length bytes at text, and writes the report into the report_length bytes at report.
 *
 * Returns
 *   the report's length, which is at least 1: the report stands at the front of the buffer, and the bytes behind it are kept; or
 *   -(number * 100,000,000 + table * 10,000,000 + row) of the refusal: the buffer is untouched.
 *
 * Number, table and row are those of docs/REFUSALS.md: the number is 1 to 14 or 16, the table 0 to 7, the row below 10,000,000. That is proved
 * (docs/CLAIMS.md). The number is never 15: that is about the number of a team in a tally, and this call takes no such number and keeps no
 * tally. A report that is longer than the buffer is refused with number 11, a bank that begins outside bits 0 to 2^55 - 1 with number 16, an
 * access other than 0, 1 and 2 with number 2.
 *
 * Every text is answered, of any length and any bytes, with any buffer. The caller sees to the following:
 *   - text and report are not null, also where the length is 0;
 *   - they point to that many bytes, which may be read, and for report written;
 *   - the two do not overlap, and nothing else writes to them during the call.
 *
 * The call needs less than 1,200,000 bytes of stack and nothing else: it allocates nothing, keeps nothing from call to call and calls no function of
 * the C library but memset. It may be called from several threads at once. */
int64_t healdrip_text_check(const uint8_t *text, size_t text_length, uint8_t *report, size_t report_length);

#ifdef __cplusplus
}
#endif

/* Number, table and row of the refusal that a code below 0 stands for, each an int. */
#define HEALDRIP_NUMBER(code) ((int)(-(int64_t)(code) / 100000000))
#define HEALDRIP_TABLE(code) ((int)(-(int64_t)(code) / 10000000 % 10))
#define HEALDRIP_ROW(code) ((int)(-(int64_t)(code) % 10000000))

/* How long a report on so many pairs can be: with a buffer of this length there is no refusal with number 11. That is proved (docs/CLAIMS.md).
 * A pair is a root row with a group of leaf rows, those that name one specification leaf. So the pairs are root rows times groups; root rows times
 * leaf rows are never fewer.
 *   42  the names of the upper table
 *   30  a pair's line: rows up to 999, a verdict of one digit, and four lists, of reading and of writing walks on each side, of up to 1024
 *       records, since a pair has at most 1024 paths on each side; as "999 999 2 1024 1024 1024 1024". A pair with no record in any of the
 *       four has no line
 *   51  the empty line and the names of the lower table
 *   52  the last line: a verdict, counts up to 1000000, rows up to 999 and a bit address up to 2^55 - 1;
 *       as "2 1000000 1000000 1000000 999 999 36028797018963967"
 * Each line is counted with its line feed. */
#define HEALDRIP_REPORT_LENGTH(pairs) ((size_t)42 + (size_t)30 * (size_t)(pairs) + 51 + 52)

#endif
