/* The exported call on LATE, from C: the summary, a clause buffer that is one byte short, and LATE without its last literal, which is consistent.
 *
 *   tests/run_late
 *
 * builds the archive and this program, and runs it. On x86-64 that is
 *
 *   tools/archive
 *   cc -Iinclude tests/late.c target/staticlib/libengine.a -o late && ./late
 *
 * Prints a line for each call that answers as it should, after the first also the summary in the words of eqsplit, made from the bytes that came
 * back. Ends with status 1 at the first call that does not answer so.
 */
#include <stdio.h>
#include <string.h>

#include "anahruyk.h"

enum { PARTITION = 512, ADDED = 4080, CLAUSES = 64, FILL = 170 };

/* k, m, p, q, f(k), f(m) */
static const uint8_t terms[6 * 16] = {
    10, 0, 0, 0, 0, 0, 0, 0, 0, 0, 0, 0, 0, 0, 0, 0, 11, 0, 0, 0, 0, 0, 0, 0, 0, 0, 0, 0, 0, 0, 0, 0,
    12, 0, 0, 0, 0, 0, 0, 0, 0, 0, 0, 0, 0, 0, 0, 0, 13, 0, 0, 0, 0, 0, 0, 0, 0, 0, 0, 0, 0, 0, 0, 0,
    20, 0, 1, 0, 0, 0, 0, 0, 0, 0, 0, 0, 0, 0, 0, 0, 20, 0, 1, 0, 1, 0, 0, 0, 0, 0, 0, 0, 0, 0, 0, 0};

/* A p=f(k), A q=f(m), B k=m, B p different q */
static const uint8_t literals[4 * 8] = {1, 1, 2, 0, 4, 0, 0, 0, 1, 1, 3, 0, 5, 0, 0, 0, 2, 1, 0, 0, 1, 0, 0, 0, 2, 2, 2, 0, 3, 0, 0, 0};

/* 0=1 -> 2=3 */
static const uint8_t summary[2 * 8] = {1, 0, 0, 0, 1, 0, 0, 0, 2, 0, 2, 0, 3, 0, 0, 0};

/* the class of k and m, and that of the other four */
static const uint8_t classes[6 * 2] = {0, 0, 0, 0, 2, 0, 2, 0, 2, 0, 2, 0};

static uint8_t partition[PARTITION], added[ADDED], clauses[CLAUSES];

/* What the last call returned. */
static struct anahruyk_numbers got;

/* Whether a buffer holds what was to be written, and behind it the bytes that it was lent with. */
static int holds(const uint8_t *buffer, size_t size, const uint8_t *wanted, size_t written) {
    for (size_t i = 0; i < size; i++)
        if (buffer[i] != (i < written ? wanted[i] : FILL)) return 0;
    return 1;
}

static int same(struct anahruyk_numbers a, struct anahruyk_numbers b) {
    return a.verdict == b.verdict && a.number == b.number && a.place == b.place && a.disequality == b.disequality && a.added == b.added &&
           a.records == b.records;
}

/* One call: so many literals of LATE, a clause buffer of so many bytes, and what should come back. */
static int call(const char *name, size_t count, size_t room, struct anahruyk_numbers wanted, size_t in_partition, size_t in_clauses) {
    memset(partition, FILL, PARTITION);
    memset(added, FILL, ADDED);
    memset(clauses, FILL, CLAUSES);
    got = anahruyk_split(terms, sizeof terms, literals, 8 * count, partition, PARTITION, added, ADDED, clauses, room);
    int right = same(got, wanted) && holds(partition, PARTITION, classes, in_partition) && holds(added, ADDED, NULL, 0) &&
                holds(clauses, CLAUSES, summary, in_clauses);
    printf("%s: %s\n", name, right ? "as it should" : "WRONG");
    return right;
}

static unsigned number(const uint8_t *at) { return at[0] + 256u * at[1]; }

/* An inconsistent answer without added terms, as eqsplit prints it: one line a clause, premises before the arrow. */
static void print_summary(void) {
    static const char *const signs[] = {"", "=", "=", "!=", ""};
    int inside = 0;
    printf("inconsistent by %zu\n", got.disequality);
    for (size_t i = 0; i < got.records; i++) {
        const uint8_t *record = clauses + 8 * i;
        int premise = record[0] == 1;
        if (premise) fputs(inside ? " & " : "", stdout);
        else fputs(inside ? " -> " : "-> ", stdout);
        if (record[0] == 4) fputs("false", stdout);
        else printf("%u%s%u", number(record + 2), signs[record[0]], number(record + 4));
        if (!premise) putchar('\n');
        inside = premise;
    }
    printf("end %zu %zu\n", got.added, got.records);
}

int main(void) {
    struct anahruyk_numbers inconsistent = {ANAHRUYK_INCONSISTENT, 0, 0, 3, 0, 2};
    struct anahruyk_numbers short_of_room = {ANAHRUYK_REFUSED, 7, 2, 0, 0, 0};
    struct anahruyk_numbers consistent = {ANAHRUYK_CONSISTENT, 0, 0, 0, 0, 0};
    if (!call("LATE", 4, 16, inconsistent, 0, 16)) return 1;
    print_summary();
    return !(call("LATE, 15 bytes", 4, 15, short_of_room, 0, 0) && call("LATE, consistent", 3, CLAUSES, consistent, 12, 0));
}
