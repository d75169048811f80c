/* The settlement unit: one function. Link target/staticlib/libunit.a, which `tools/staticlib` proves and writes (x86-64). */
#ifndef SETTLEMENT_H
#define SETTLEMENT_H

#include <stddef.h>
#include <stdint.h>

#ifdef __cplusplus
extern "C" {
#endif

/*
 * Settles a file and writes its report. The file is of version 1, with up to 64 points, or of version 2, with up to 256. Either may have
 * up to 65,536 bytes, and up to 64 providers with a charged day.
 *
 * The answer is one number. From 52 on it is the length of the report, which stands at the front of `space`. Below 52 it is a refusal: the number
 * of the first breach in the documents' order, from 1 to 14. No report is under 52 bytes and no refusal over 14, so the two don't collide.
 *
 * Promised, and proved of every file and every space:
 * - the same file and the same space length always give the same answer, to the byte;
 * - bytes of `space` past the report keep their contents, and a refused call leaves all of `space` as it was;
 * - the call ends.
 *
 * True of the code as it is built, though no contract says it: the call keeps nothing between calls, allocates nothing, and calls nothing outside
 * itself beside memcpy and memset, which the compiler may put in and the C library or the firmware supplies.
 *
 * Assumed of the caller, since C can't state it:
 * - `file` points to `file_len` bytes that can be read, and `space` to `space_len` bytes that can be written, until the call returns;
 * - the two don't overlap, and nobody else writes to them during the call;
 * - neither pointer is null, even where its length is 0 (any other address will do then; it is not read);
 * - the stack has room. Measured, not proved: a call took at most 14,696 bytes, its return address included, on the eight files of
 *   docs/MEASURED.md, part 4 (x86-64, the archive as `rt lib` builds it, glibc's memcpy and memset).
 *
 * A `file_len` of 0 is a file that lacks bits: the answer is 2. A `space_len` of 0 is a space too short: 14, unless the file is refused first.
 * No report is longer than 26,567 bytes, so 26,567 bytes of space suffice for every file.
 */
uint64_t settlement_report(const uint8_t *file, size_t file_len, uint8_t *space, size_t space_len);

/* Below this number an answer is a refusal. */
#define SETTLEMENT_SHORTEST_REPORT 52

/* No report is longer. */
#define SETTLEMENT_LONGEST_REPORT 26567

enum settlement_refusal {
    SETTLEMENT_FILE_TOO_LONG = 1,          /* over 65,536 bytes */
    SETTLEMENT_RECORD_LACKS_BITS = 2,      /* a record lacks bits */
    SETTLEMENT_MARK_OR_VERSION = 3,        /* mark, or a version other than 1 and 2 */
    SETTLEMENT_FIELD_OUTSIDE_RANGE = 4,    /* field outside its range, such as 65 points in version 1 or 257 in version 2 */
    SETTLEMENT_NOT_ASCENDING = 5,          /* band sizes, point numbers, or a list's days not strictly ascending */
    SETTLEMENT_FIRST_TRANSFER_LATE = 6,    /* first transfer after connection */
    SETTLEMENT_DISCOUNTS_OVER_WHOLE = 7,   /* discounts together above 10,000 */
    SETTLEMENT_ENDS_BEFORE_START = 8,      /* disconnection before connection, or removal before installation */
    SETTLEMENT_READ_OUTSIDE_METER = 9,     /* read before installation or after removal */
    SETTLEMENT_ROLLOVER = 10,              /* rollover set on a first read, or not set exactly when the value falls */
    SETTLEMENT_READS_FAR_APART = 11,       /* over 3,660 days between reads */
    SETTLEMENT_PADDING = 12,               /* padding bit set, or a byte more */
    SETTLEMENT_TOO_MANY_PROVIDERS = 13,    /* over 64 providers with a charged day */
    SETTLEMENT_SPACE_TOO_SHORT = 14        /* report space shorter than the report */
};

#ifdef __cplusplus
}
#endif

#endif
