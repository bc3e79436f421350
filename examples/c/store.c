/* A load buffer's life in the object store. Build and run, at the repository's root:
 *   cc -Wall -Wextra -Werror -Iinclude examples/c/store.c target/staticlib/libcapi.a -o target/store && target/store */
#include <inttypes.h>
#include <stdio.h>

#include "cueledger.h"

#define SLOT_EXPONENT 10

static uint8_t image[64 * 1024];
static uint64_t table[CUE_TABLE_ENTRIES(sizeof image, SLOT_EXPONENT)];

#define STORE image, sizeof image, table, sizeof table / sizeof table[0]

static const uint8_t types[] = {
    CUE_PLAIN(2, 4),                                           /* type 2: a number of 4 bytes */
    CUE_RECORD(5, 12, 2), CUE_FIELD(0, 2), CUE_FIELD(8, 2),    /* type 5: a sample, with numbers at 0 and 8 */
    CUE_RECORD(1, 30, 2), CUE_FIELD(4, 5), CUE_FIELD(16, 5),   /* type 1: a load buffer, with samples at 4 and 16 */
};

static const uint32_t sizes[] = {560, 2000, 500, 3000};         /* of four load buffers */

static void report(const char *call, uint32_t number)
{
    if (number == CUE_ACCEPTED)
        printf("%s: accepted\n", call);
    else
        printf("%s: refused, %s (%" PRIu32 ")\n", call, cue_reason(number), number);
}

int main(void)
{
    uint64_t record, name, buffer, empty, moved, value, objects, live_bytes, free_bytes, overhead_bytes, total;
    uint64_t places, large, tried, least;
    uint64_t raw, with_headers, padded, end, headers_extra, headers_over, padded_extra, padded_over;
    int64_t order, from_start, to_end;
    int i;

    report("set up", cue_setup(STORE, SLOT_EXPONENT));
    report("allocate 10", cue_allocate(STORE, 10, 7, &record));
    printf("pointer 0x%016" PRIX64 "\n", record);

    report("store", cue_store(STORE, record, 4, 1250));
    report("load", cue_load(STORE, record, 4, &value));
    printf("value %" PRIu64 "\n", value);
    report("store a sample of 24 bits", cue_store(STORE, record, 3, 0xFFFFFF));
    report("load 3", cue_load(STORE, record, 3, &value));
    printf("value 0x%06" PRIX64 "\n", value);
    report("store one of 25 bits in 3", cue_store(STORE, record, 3, 0x1000000));

    report("move by 2", cue_move(STORE, record, 2, &moved));
    report("fill 8 there", cue_fill(STORE, moved, 8, 255));
    report("load 8 there", cue_load(STORE, moved, 8, &value));
    printf("value 0x%016" PRIX64 "\n", value);
    report("store 8 there", cue_store(STORE, moved, 8, 0x0807060504030201));
    report("copy 8 from there to the start", cue_copy(STORE, record, moved, 8)); /* six bytes in common */
    report("load 8 at the start", cue_load(STORE, record, 8, &value));
    printf("value 0x%016" PRIX64 "\n", value);
    report("copy 8 from the start to there", cue_copy(STORE, moved, record, 8));
    report("load 8 there", cue_load(STORE, moved, 8, &value));
    printf("value 0x%016" PRIX64 "\n", value);
    report("copy 9 from there to the start", cue_copy(STORE, record, moved, 9));
    report("move by 3", cue_move(STORE, record, 3, &moved));
    report("load 8 there", cue_load(STORE, moved, 8, &value));
    printf("value %" PRIu64 "\n", value);
    report("distances there", cue_distances(STORE, moved, &from_start, &to_end));
    printf("%" PRId64 " from the start, %" PRId64 " to the end\n", from_start, to_end);
    report("distances at the start", cue_distances(STORE, record, &from_start, &to_end));
    printf("%" PRId64 " from the start, %" PRId64 " to the end\n", from_start, to_end);
    report("move by -1", cue_move(STORE, record, -1, &moved));
    report("distances there", cue_distances(STORE, moved, &from_start, &to_end)); /* in the header */
    printf("%" PRId64 " from the start, %" PRId64 " to the end\n", from_start, to_end);
    report("load 1 there", cue_load(STORE, moved, 1, &value));
    report("move by a slot", cue_move(STORE, record, 1 << SLOT_EXPONENT, &moved));

    report("allocate 6 for a name", cue_allocate(STORE, 6, 8, &name));
    report("store \"cue 1\" and a zero byte", cue_store(STORE, name, 6, 0x003120657563));
    report("copy the text to the record", cue_copy_text(STORE, record, name, &value));
    printf("%" PRIu64 " bytes\n", value);
    report("compare 6 bytes of record and name", cue_compare(STORE, record, name, 6, &order));
    printf("order %" PRId64 "\n", order);
    report("store \"cue 2\" and a zero byte", cue_store(STORE, name, 6, 0x003220657563));
    report("compare 6 bytes of record and name", cue_compare(STORE, record, name, 6, &order));
    printf("order %" PRId64 "\n", order);
    report("fill the name", cue_fill(STORE, name, 6, '?'));
    report("copy the text to the record", cue_copy_text(STORE, record, name, &value));
    printf("%" PRIu64 " bytes\n", value);
    report("free the name", cue_free(STORE, name));

    report("allocate a load buffer of type 1", cue_allocate(STORE, 30, 1, &buffer));
    report("move by 4", cue_move(STORE, buffer, 4, &moved));
    report("is a sample there", cue_has_type(STORE, types, sizeof types, moved, 5, &value));
    puts(value ? "yes" : "no");
    report("is a number there", cue_has_type(STORE, types, sizeof types, moved, 2, &value)); /* the sample's first */
    puts(value ? "yes" : "no");
    report("is a load buffer there", cue_has_type(STORE, types, sizeof types, moved, 1, &value));
    puts(value ? "yes" : "no");
    report("a list without type 1", cue_has_type(STORE, types, 36, moved, 5, &value));
    report("a list that is cut short", cue_has_type(STORE, types, sizeof types - 1, moved, 5, &value));
    report("free it", cue_free(STORE, buffer));

    report("allocate 0 for cue 11", cue_allocate_for(STORE, 0, 9, 11, &empty)); /* no samples yet, but a pointer of its own */
    report("load 1 there", cue_load(STORE, empty, 1, &value));
    report("distances there", cue_distances(STORE, empty, &from_start, &to_end));
    printf("%" PRId64 " from the start, %" PRId64 " to the end\n", from_start, to_end);
    report("free it", cue_free(STORE, empty));

    report("allocate 100 for cue 12", cue_allocate_for(STORE, 100, 9, 12, &buffer));
    report("allocate 2000 for cue 12", cue_allocate_for(STORE, 2000, 9, 12, &buffer)); /* large-framed: longer than a slot */
    report("free total", cue_free_total(STORE, &total));
    printf("%" PRIu64 " bytes\n", total);
    report("release cue 12", cue_release(STORE, 12, &value));
    printf("%" PRIu64 " objects\n", value);
    report("free total", cue_free_total(STORE, &total));
    printf("%" PRIu64 " bytes\n", total);
    report("load from the larger", cue_load(STORE, buffer, 1, &value));
    report("release cue 12 again", cue_release(STORE, 12, &value));
    printf("%" PRIu64 " objects\n", value);

    report("tally", cue_tally(STORE, &objects, &live_bytes, &free_bytes, &overhead_bytes));
    printf("objects %" PRIu64 ", live bytes %" PRIu64 ", free bytes %" PRIu64 ", overhead bytes %" PRIu64 "\n", objects, live_bytes, free_bytes, overhead_bytes);
    report("free", cue_free(STORE, record));
    report("free again", cue_free(STORE, record));
    report("distances at the start", cue_distances(STORE, record, &from_start, &to_end));
    printf("%" PRId64 " from the start, %" PRId64 " to the end\n", from_start, to_end);
    report("tally", cue_tally(STORE, &objects, &live_bytes, &free_bytes, &overhead_bytes));
    printf("objects %" PRIu64 ", live bytes %" PRIu64 ", free bytes %" PRIu64 ", overhead bytes %" PRIu64 "\n", objects, live_bytes, free_bytes, overhead_bytes);

    /* the store is empty: in which order are the four buffers allocated best? */
    report("as they are listed", cue_order(sizes, 4, SLOT_EXPONENT, 1, &places, &large, &tried, &least));
    printf("%" PRIu64 " large-framed\n", large);
    report("the best of all orders", cue_order(sizes, 4, SLOT_EXPONENT, 24, &places, &large, &tried, &least));
    printf("%" PRIu64 " large-framed of at least %" PRIu64 ", %" PRIu64 " orders tried\n", large, least, tried);
    for (i = 0; i < 4; i++) {
        uint32_t size = sizes[places >> 8 * i & 0xFF];
        report("allocate the next", cue_allocate(STORE, size, 1, &buffer));
        printf("%" PRIu32 " bytes, %s\n", size, buffer >> 63 ? "small-framed" : "large-framed");
    }
    report("no order tried", cue_order(sizes, 4, SLOT_EXPONENT, 0, &places, &large, &tried, &least));
    report("no buffers", cue_order(sizes, 0, SLOT_EXPONENT, 24, &places, &large, &tried, &least));

    /* what the four buffers take here, and what they would take in padded blocks */
#define REPORT &raw, &with_headers, &padded, &end, &headers_extra, &headers_over, &padded_extra, &padded_over
    report("overheads", cue_overhead(sizes, 4, REPORT));
    printf("%" PRIu64 " bytes, with headers %" PRIu64 ", overhead %" PRIu64 "/%" PRIu64 "\n", raw, with_headers, headers_extra, headers_over);
    printf("padded %" PRIu64 ", overhead %" PRIu64 "/%" PRIu64 ", end reached %" PRIu64 "\n", padded, padded_extra, padded_over, end);
    report("overheads of no buffers", cue_overhead(sizes, 0, REPORT));
    printf("%" PRIu64 "/%" PRIu64 " and %" PRIu64 "/%" PRIu64 "\n", headers_extra, headers_over, padded_extra, padded_over);
    return 0;
}
