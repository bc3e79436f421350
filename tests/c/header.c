/* The header's macros and names against the library. Compiled as C99 and as C++11. */
#include "cueledger.h"

#include <stdio.h>
#include <string.h>

#define LONGEST (1 << 16)

static uint8_t image[LONGEST];
static uint64_t table[CUE_TABLE_ENTRIES(LONGEST, 6)];

/* constant expressions: 48 for each 2^(s + 1) bytes begun */
typedef char divisions_whole[CUE_TABLE_ENTRIES(4096, 9) == 48 * 4 ? 1 : -1];
typedef char divisions_begun[CUE_TABLE_ENTRIES(4096 + 1, 8 + 1) == 48 * 5 ? 1 : -1];
typedef char least[CUE_TABLE_ENTRIES(64, 15) == 48 ? 1 : -1];
typedef char most[CUE_TABLE_ENTRIES(1 << 30, 6) == 48 * (1 << 23) ? 1 : -1];

static int failures;

static void expect(const char *what, uint32_t number, uint32_t wanted)
{
    if (number != wanted) {
        printf("%s: %s, not %s\n", what, cue_reason(number), cue_reason(wanted));
        failures++;
    }
}

/* signed values, below 0 on either side of the body, and 0 where they are refused */
static void expect_distances(uint64_t pointer, uint32_t wanted, int64_t from, int64_t to)
{
    int64_t from_start = -1, to_end = -1;

    expect("distances", cue_distances(image, 1024, table, CUE_TABLE_ENTRIES(1024, 6), pointer, &from_start, &to_end), wanted);
    if (from_start != from || to_end != to) {
        printf("distances: %ld and %ld, not %ld and %ld\n", (long)from_start, (long)to_end, (long)from, (long)to);
        failures++;
    }
}

/* both values after a full log too, and 0 where it is refused */
static void expect_traffic(uint32_t s, uint64_t draws, size_t log_len, uint32_t wanted, uint64_t state, uint64_t bytes)
{
    uint8_t log[32] = {0};
    uint64_t state_after = 1, written = 1;

    expect("traffic", cue_traffic(image, 1024, table, CUE_TABLE_ENTRIES(1024, 6), s, 0, draws, log, log_len, &state_after, &written), wanted);
    if (state_after != state || written != bytes) {
        printf("traffic: state %#lx and %lu bytes, ", (unsigned long)state_after, (unsigned long)written);
        printf("not %#lx and %lu\n", (unsigned long)state, (unsigned long)bytes);
        failures++;
    }
    /* an allocate's record comes first */
    if (log[0] != (bytes ? 10 : 0) || log[2] != (bytes ? 16 : 0)) {
        printf("traffic: the log starts with %d and %d\n", log[0], log[2]);
        failures++;
    }
}

/* types that the macros describe: 4 bytes (1); a record with two of them (2); one of the largest size, with a byte at its end (65535) */
static const uint8_t types[] = {
    CUE_PLAIN(1, 4),
    CUE_RECORD(2, 10, 2), CUE_FIELD(0, 1), CUE_FIELD(6, 1),
    CUE_PLAIN(0x1234, 1),
    CUE_RECORD(65535, 0xFFFFFFFF, 1), CUE_FIELD(0xFFFFFFFE, 0x1234),
};

/* yes or no, and 0 where it is refused */
static void expect_type(size_t types_len, uint64_t pointer, uint16_t type, uint32_t wanted, uint64_t answer)
{
    uint64_t yes = 2;

    expect("has type", cue_has_type(image, 1024, table, CUE_TABLE_ENTRIES(1024, 6), types, types_len, pointer, type, &yes), wanted);
    if (yes != answer) {
        printf("has type: %lu, not %lu\n", (unsigned long)yes, (unsigned long)answer);
        failures++;
    }
}

static const uint32_t sizes[] = {4, 20, 100, 65535, 0, 47, 48, 300, 1, 65536};

/* place i is byte i, and all values are 0 where it is refused */
static void expect_order(size_t from, size_t count, uint32_t s, uint64_t budget, uint32_t wanted, const uint64_t values[4])
{
    uint64_t order = 1, large = 1, tried = 1, least = 1;

    expect("order", cue_order(sizes + from, count, s, budget, &order, &large, &tried, &least), wanted);
    if (order != values[0] || large != values[1] || tried != values[2] || least != values[3]) {
        printf("order: %#lx, large %lu, tried %lu, floor %lu, ", (unsigned long)order, (unsigned long)large, (unsigned long)tried, (unsigned long)least);
        printf("not %#lx, %lu, %lu, %lu\n", (unsigned long)values[0], (unsigned long)values[1], (unsigned long)values[2], (unsigned long)values[3]);
        failures++;
    }
}

/* the four sums, then extra and over twice; all are 0 where it is refused */
static void expect_overhead(const uint32_t *list, size_t count, uint32_t wanted, const uint64_t values[8])
{
    uint64_t got[8] = {2, 2, 2, 2, 2, 2, 2, 2};
    int i;

    expect("overhead", cue_overhead(list, count, &got[0], &got[1], &got[2], &got[3], &got[4], &got[5], &got[6], &got[7]), wanted);
    for (i = 0; i < 8; i++)
        if (got[i] != values[i]) {
            printf("overhead of %lu sizes: value %d is %lu, not %lu\n", (unsigned long)count, i, (unsigned long)got[i], (unsigned long)values[i]);
            failures++;
        }
}

/* 17 to 19 are a call log's */
static int returned(uint32_t number)
{
    return number <= CUE_TOO_LARGE || (number >= CUE_UNTERMINATED && number <= CUE_BAD_SIZE);
}

int main(void)
{
    static const uint64_t none[4] = {0, 0, 0, 0}, first[4] = {0x020100, 2, 1, 1}, best[4] = {0x010200, 1, 6, 1};
    static const uint64_t alone[4] = {0, 1, 1, 1}, eight[4] = {UINT64_C(0x0706050403020100), 6, 1, 4};
    static const uint64_t refused[8] = {0}, empty[8] = {0, 0, 0, 0, 0, 1, 0, 1}, largest[8] = {65535, 65551, 65536, 65536, 16, 65535, 1, 65535};
    static const uint64_t three[8] = {124, 172, 176, 256, 48, 124, 52, 124}; /* blocks of 16, 32 and 128 bytes */
    static const uint64_t full[8] = {65536, 1114112, 1048576, 1048576, 1048576, 65536, 983040, 65536};
    static uint32_t ones[65537];
    static const size_t lengths[] = {64, 127, 128, 129, 4095, 4096, 4097, LONGEST - 1, LONGEST};
    uint32_t s, number, other;
    uint64_t pointer;
    size_t i;

    for (s = 6; s <= 15; s++)
        for (i = 0; i < sizeof lengths / sizeof lengths[0]; i++) {
            size_t entries = CUE_TABLE_ENTRIES(lengths[i], s);
            expect("one entry too few", cue_setup(image, lengths[i], table, entries - 1, s), CUE_TOO_FEW_ENTRIES);
            expect("as many as it takes", cue_setup(image, lengths[i], table, entries, s), CUE_ACCEPTED);
        }

    expect("set-up", cue_setup(image, 1024, table, CUE_TABLE_ENTRIES(1024, 6), 6), CUE_ACCEPTED);
    expect("allocate", cue_allocate(image, 1024, table, CUE_TABLE_ENTRIES(1024, 6), 10, 7, &pointer), CUE_ACCEPTED);
    expect_distances(pointer, CUE_ACCEPTED, 0, 10);
    expect_distances(pointer - 1, CUE_ACCEPTED, -1, 11);
    expect_distances(pointer + 11, CUE_ACCEPTED, 11, -1);
    expect_distances(pointer + 32, CUE_DANGLING, 0, 0);
    expect_type(sizeof types, pointer, 7, CUE_UNDESCRIBED, 0);
    expect("allocate a record", cue_allocate(image, 1024, table, CUE_TABLE_ENTRIES(1024, 6), 10, 2, &pointer), CUE_ACCEPTED);
    expect_type(sizeof types, pointer, 2, CUE_ACCEPTED, 1);
    expect_type(sizeof types, pointer, 1, CUE_ACCEPTED, 1);
    expect_type(sizeof types, pointer + 6, 1, CUE_ACCEPTED, 1);
    expect_type(sizeof types, pointer + 4, 1, CUE_ACCEPTED, 0);
    expect_type(sizeof types, pointer - 1, 2, CUE_ACCEPTED, 0);
    expect_type(36, pointer, 2, CUE_ACCEPTED, 1);
    expect_type(12, pointer, 1, CUE_UNDESCRIBED, 0);
    expect_type(sizeof types - 1, pointer, 2, CUE_BAD_DESCRIPTOR, 0);
    expect_type(0, pointer, 2, CUE_UNDESCRIBED, 0);
    expect_type(sizeof types, 0, 2, CUE_BAD_TAG, 0);
    expect("allocate 0", cue_allocate(image, 1024, table, CUE_TABLE_ENTRIES(1024, 6), 0, 7, &pointer), CUE_ACCEPTED);
    expect_distances(pointer, CUE_ACCEPTED, 0, 0);
    expect("fill 0", cue_fill(image, 1024, table, CUE_TABLE_ENTRIES(1024, 6), pointer, 0, 1), CUE_EMPTY);
    expect("fill 1", cue_fill(image, 1024, table, CUE_TABLE_ENTRIES(1024, 6), pointer, 1, 1), CUE_OUT_OF_BOUNDS);

    /* an allocate of 10 bytes of log, then a store of 22 */
    expect_traffic(5, 2, 32, CUE_BAD_EXPONENT, 0, 0);
    expect_traffic(6, 0, 0, CUE_ACCEPTED, 0, 0);
    expect_traffic(6, 1, 9, CUE_LOG_FULL, 0, 0);
    expect_traffic(6, 1, 10, CUE_ACCEPTED, UINT64_C(0x9E3779B97F4A7C15), 10);
    expect_traffic(6, 2, 31, CUE_LOG_FULL, UINT64_C(0x9E3779B97F4A7C15), 10);
    expect_traffic(6, 2, 32, CUE_ACCEPTED, UINT64_C(0x3C6EF372FE94F82A), 32);

    expect_order(0, 3, 6, 1, CUE_ACCEPTED, first);
    expect_order(0, 3, 6, UINT64_MAX, CUE_ACCEPTED, best);
    expect_order(3, 1, 15, 1, CUE_ACCEPTED, alone);
    expect_order(0, 8, 6, 1, CUE_ACCEPTED, eight);
    expect_order(0, 0, 6, 1, CUE_BAD_PLAN, none);
    expect_order(0, 9, 6, 1, CUE_BAD_PLAN, none);
    expect_order(9, 1, 6, 1, CUE_BAD_PLAN, none);
    expect_order(0, 3, 5, 1, CUE_BAD_PLAN, none);
    expect_order(0, 3, 16, 0, CUE_BAD_PLAN, none);
    expect_order(0, 3, 6, 0, CUE_NO_BUDGET, none);

    for (i = 0; i < 65537; i++)
        ones[i] = 1;
    expect_overhead(sizes, 0, CUE_ACCEPTED, empty);
    expect_overhead(sizes, 3, CUE_ACCEPTED, three);
    expect_overhead(sizes + 3, 1, CUE_ACCEPTED, largest);
    expect_overhead(ones, 65536, CUE_ACCEPTED, full);
    expect_overhead(ones, 65537, CUE_TOO_MANY_SIZES, refused);
    expect_overhead(sizes, 5, CUE_BAD_SIZE, refused);
    ones[0] = 65537;
    expect_overhead(ones, 65536, CUE_BAD_SIZE, refused);
    expect_overhead(ones, 65537, CUE_TOO_MANY_SIZES, refused);

    /* a reason of its own for each number, and one for all that no call returns */
    for (number = CUE_ACCEPTED; number <= CUE_BAD_SIZE + 1; number++)
        for (other = CUE_ACCEPTED; other < number; other++)
            if ((strcmp(cue_reason(number), cue_reason(other)) == 0) != (!returned(number) && !returned(other))) {
                printf("%u and %u: \"%s\" and \"%s\"\n", (unsigned)other, (unsigned)number, cue_reason(other), cue_reason(number));
                failures++;
            }
    return failures != 0;
}
