/* The engine's call, for C on x86-64 Linux: link with the archive that `tools/archive` writes.
 *
 * docs/FORMAT.md has the layout of the tables and of what is written, the refusals and the rules. Working storage is the library's own, less than
 * 1 MB of the caller's stack; it keeps no state between calls, so several threads may call it at one time, each with buffers of its own.
 */
#ifndef ANAHRUYK_H
#define ANAHRUYK_H

#include <stddef.h>
#include <stdint.h>

#ifdef __cplusplus
extern "C" {
#endif

enum anahruyk_verdict {
    ANAHRUYK_CONSISTENT = 0,
    ANAHRUYK_INCONSISTENT = 1,
    ANAHRUYK_REFUSED = 2
};

/* What comes back beside the lent buffers. The numbers of the other verdicts are 0. */
struct anahruyk_numbers {
    size_t verdict;     /* one of enum anahruyk_verdict */
    size_t number;      /* refused: the refusal's number, 1 to 8 */
    size_t place;       /* refused: its place */
    size_t disequality; /* inconsistent: the record number of the critical disequality */
    size_t added;       /* inconsistent: how many terms of 16 bytes were added */
    size_t records;     /* inconsistent: how many clause records of 8 bytes were written */
};

/* Judges two tables. Each buffer is a pointer and the count of its bytes.
 *
 * The two tables are only read and may hold any bytes. The three lent buffers overlap neither each other nor a table. No pointer is null, also
 * where the count is 0. A consistent answer writes 2 bytes of partition for each term; an inconsistent one writes added terms and clause records;
 * a refusal writes nothing. All other bytes keep their content. 512 and 4,080 bytes are enough for any partition and any added terms; clauses
 * have no such bound.
 */
struct anahruyk_numbers anahruyk_split(
    const uint8_t *terms, size_t terms_length,
    const uint8_t *literals, size_t literals_length,
    uint8_t *partition, size_t partition_length,
    uint8_t *added, size_t added_length,
    uint8_t *clauses, size_t clauses_length);

#ifdef __cplusplus
}
#endif

#endif
