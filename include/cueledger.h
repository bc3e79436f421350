/* CueLedger's object store: one lent image of memory and a frame table, from which objects are allocated, and
 * FRAMER tagged pointers through which each read and write is checked. Link with libcapi.a. The repository's
 * docs/FORMAT.md has the layout of image, table and pointers, and each call in full.
 *
 * Each function returns CUE_ACCEPTED (0) or the number of a refusal (enum cue_refusal). A refused call has changed no
 * byte of image, table or log, and every value given through a pointer is 0, with one exception: cue_traffic's CUE_LOG_FULL
 * (23), after which all that was done stands, and both values are given. Every call ends properly on all images, tables,
 * pointers, logs, lists of descriptors, sizes and numbers.
 *
 * Arguments. Lengths count bytes of the image, of the log and of the descriptors, and 64-bit entries of the table; a count,
 * sizes of 32 bits. Image, table, log, descriptors, sizes and values must be valid for the call (not null, also where a length
 * or count is 0, and aligned as their types ask) and must not overlap. No pointer is kept: image and table can be saved,
 * restored at another address and lent again, and tagged pointers keep their meaning.
 *
 * Limits.
 * - The archive is for x86-64 Linux: size_t has 64 bits. It calls memmove and memset and no other outside function, and
 *   has neither heap nor global data.
 * - One call at a time on an image and its table: no second thread, no interrupt handler in between. Calls on different
 *   images do not disturb each other.
 * - Time: allocate, free, release and tally walk over the blocks from the image's start and grow with their number. Setup,
 *   free, release, fill and copy also grow with the bytes that they write, compare and text copy with those that they read.
 *   Load, store, move, distances and free total take constant time. Traffic sets up and then grows with its draws, of which
 *   each is an allocate, a free or a store. Has type does not depend on the blocks: it checks the whole list of descriptors,
 *   and then follows one field of each record that it enters. Each type, each field's type and each type entered is looked up
 *   by a walk from the list's start, 1.5 ns or so on a PC for each descriptor passed: 16 types, each a field of the next, take
 *   0.3 microseconds, 1,000 take 2 ms, and 65,536 take 10 s. Order grows with the orders that it tries and with the sizes: all
 *   40,320 orders of eight take 1.2 ms on a PC. Overhead grows with the number of sizes: 65,536 take 0.2 ms.
 * - Stack, in bytes at most: the return address and all below it, without memmove and memset.
 *     cue_setup         64    cue_load      48    cue_copy         80
 *     cue_allocate     104    cue_store     56    cue_compare      80
 *     cue_allocate_for  80    cue_free     120    cue_copy_text    64
 *     cue_move          16    cue_release  112    cue_tally        56
 *     cue_distances     56    cue_fill      48    cue_free_total    8
 *     cue_traffic      768    cue_has_type      96    cue_order    104
 *     cue_overhead      64
 *   None takes more for a longer list: cue_has_type follows types that are fields of one another by a loop.
 *
 * On CUE_UNSOUND something else has written into the image. Allocate, free and release nothing more there. Objects that
 * their pointers still reach can be loaded; save image and table for diagnosis, then set the store up afresh. The same
 * holds on CUE_WRONG_TOTAL, unless the image was set up before 1.4.0: README.md, "Saving", says how to take it over. */
#ifndef CUELEDGER_H
#define CUELEDGER_H

#include <stddef.h>
#include <stdint.h>

#ifdef __cplusplus
extern "C" {
#endif

#define CUE_VERSION_MAJOR 1
#define CUE_VERSION_MINOR 12
#define CUE_VERSION_PATCH 0
#define CUE_VERSION "1.12.0"

/* 17 to 19 are a call log's (docs/FORMAT.md): the program replay prints them, and no function returns them. */
enum cue_refusal {
    CUE_ACCEPTED = 0,
    CUE_BAD_EXPONENT = 1,    /* setup: slot exponent outside 6..15 */
    CUE_BAD_LENGTH = 2,      /* setup: image length outside 64..2^30 */
    CUE_TOO_FEW_ENTRIES = 3, /* setup: table shorter than CUE_TABLE_ENTRIES */
    CUE_BAD_SUPERBLOCK = 4,  /* image not set up, set up with another length, or damaged at its start */
    CUE_SHORT_TABLE = 5,     /* table shorter than CUE_TABLE_ENTRIES */
    CUE_EMPTY = 6,           /* fill, copy, compare: length 0 */
    CUE_UNSOUND = 7,         /* unsound header on the walk: the image is damaged */
    CUE_NO_SPACE = 8,        /* no free block is large enough */
    CUE_ENTRY_TAKEN = 9,     /* the new object's table entry is not zero: the table is damaged, or another image's */
    CUE_BAD_TAG = 10,        /* tag number out of range: not a pointer of this store */
    CUE_DANGLING = 11,       /* the tag leads to no live header that has this tag */
    CUE_LEAVES = 12,         /* the move leaves slot, frame or 48 bits */
    CUE_OUT_OF_BOUNDS = 13,  /* bytes not all inside the body */
    CUE_BAD_WIDTH = 14,      /* width outside 1..8 */
    CUE_NOT_BASE = 15,       /* free: the address is not the object's start */
    CUE_TOO_LARGE = 16,      /* store: value too large for the width */
    CUE_UNTERMINATED = 20,   /* text copy: no zero byte from the source's address to the body's end */
    CUE_ENTRY_LOST = 21,     /* release: an object's entry does not hold its header: the table is damaged, or another image's */
    CUE_WRONG_TOTAL = 22,    /* the free total would fall below 0, or rise above image_len - 16: the image is damaged, or older than 1.4.0 */
    CUE_LOG_FULL = 23,       /* traffic: the log has no space for the next record; what was recorded stands, and both values are given */
    CUE_BAD_DESCRIPTOR = 24, /* has type: a descriptor of the list is bad: see cue_has_type */
    CUE_UNDESCRIBED = 25,    /* has type: the object's type is not listed, or described with more bytes than the object has */
    CUE_BAD_PLAN = 26,       /* order: not 1 to 8 sizes, a size above 65535, or a slot exponent outside 6..15 */
    CUE_NO_BUDGET = 27,      /* order: the budget of orders is 0 */
    CUE_TOO_MANY_SIZES = 28, /* overhead: more than 65,536 sizes */
    CUE_BAD_SIZE = 29        /* overhead: a size outside 1..65,536 */
};

/* A returned number as text. */
static inline const char *cue_reason(uint32_t number)
{
    switch (number) {
    case CUE_ACCEPTED: return "accepted";
    case CUE_BAD_EXPONENT: return "slot exponent outside 6 to 15";
    case CUE_BAD_LENGTH: return "image length outside 64 to 2^30";
    case CUE_TOO_FEW_ENTRIES: return "table too short to set up";
    case CUE_BAD_SUPERBLOCK: return "superblock not as laid out";
    case CUE_SHORT_TABLE: return "table shorter than the used entries";
    case CUE_EMPTY: return "length 0";
    case CUE_UNSOUND: return "walk meets an unsound header";
    case CUE_NO_SPACE: return "no free block fits";
    case CUE_ENTRY_TAKEN: return "table entry not zero";
    case CUE_BAD_TAG: return "tag number out of range";
    case CUE_DANGLING: return "tag leads to no live object";
    case CUE_LEAVES: return "move leaves slot, frame or 48 bits";
    case CUE_OUT_OF_BOUNDS: return "bytes not all inside the body";
    case CUE_BAD_WIDTH: return "width outside 1 to 8";
    case CUE_NOT_BASE: return "address is not the base";
    case CUE_TOO_LARGE: return "value too large for the width";
    case CUE_UNTERMINATED: return "no zero byte up to the body's end";
    case CUE_ENTRY_LOST: return "table entry does not hold its header";
    case CUE_WRONG_TOTAL: return "free total below 0 or above L - 16";
    case CUE_LOG_FULL: return "log has no space for the next record";
    case CUE_BAD_DESCRIPTOR: return "bad type descriptor";
    case CUE_UNDESCRIBED: return "object not described";
    case CUE_BAD_PLAN: return "sizes or slot exponent out of range";
    case CUE_NO_BUDGET: return "budget of orders is 0";
    case CUE_TOO_MANY_SIZES: return "more than 65,536 sizes";
    case CUE_BAD_SIZE: return "size outside 1 to 65,536";
    default: return "no refusal has this number";
    }
}

/* The table entries that an image of image_len bytes (64..2^30) needs: 48 for each 2^(slot_exponent + 1) bytes begun.
 * A constant expression where the arguments are. */
#define CUE_TABLE_ENTRIES(image_len, slot_exponent) \
    ((size_t)48 * ((((size_t)(image_len) - 1) >> ((slot_exponent) + 1)) + 1))

/* A fresh store: zeroes the image, writes superblock and one free block, zeroes the used table entries. Entries beyond
 * them are never written. The free total is image_len - 16.
 * Refusals, in order: 1, 2, 3.
 *
 * The slot exponent s sets the slot, 2^s bytes. An object with header, body and the byte behind them in one slot
 * (small-framed) is found from its pointer alone; any other takes a table entry, and its loads and stores read the table
 * too. The table takes 48 * 8 bytes for each 2^(s + 1) bytes of image, at least once:
 *     s        6      7      8      9     10     11     12     13     14     15
 *     table  300 %  150 %   75 %   38 %   19 %  9.4 %  4.7 %  2.3 %  1.2 %  0.6 %  of the image
 * Of many objects of one size, about (16 + size) / 2^s are not small-framed, and all are where 17 + size > 2^s:
 *     16 bytes  50 %   25 %   12 %    6 %    3 %    2 %    1 %   < 1 %  < 1 %  < 1 %
 *    256 bytes  100 %  100 %  100 %   53 %   27 %   13 %    7 %    3 %    2 %    1 %
 *   4096 bytes  100 %  100 %  100 %  100 %  100 %  100 %  100 %   50 %   25 %   13 %
 * (measured: an image of 1 MiB filled with them). So take 15, unless cue_move is to refuse nearer to the object. */
uint32_t cue_setup(uint8_t *image, size_t image_len, uint64_t *table, size_t table_len, uint32_t slot_exponent);

/* Takes the lowest free block that fits and gives the tagged pointer to the body, which is not written: it is zero on an
 * image that only these calls have written since cue_setup. The free total falls by the object's extent: 16 + size, and
 * the at most 15 spare bytes behind it.
 * Size 0 gives an object of no bytes, a header without a body: no other live object has its pointer, and no byte can
 * be loaded or stored through it. Its address may be image_len.
 * Refusals, in order: 4, 5, then 7 or 8 as the walk ends, 9, 22 (the extent exceeds the free total). */
uint32_t cue_allocate(uint8_t *image, size_t image_len, uint64_t *table, size_t table_len, uint32_t size, uint16_t type, uint64_t *pointer);

/* The same for a cue, whose objects cue_release frees together. cue_allocate is for cue 0.
 * Refusals: those of cue_allocate. */
uint32_t cue_allocate_for(uint8_t *image, size_t image_len, uint64_t *table, size_t table_len, uint32_t size, uint16_t type, uint32_t cue, uint64_t *pointer);

/* Adds a signed distance to the pointer's address, inside its slot or frame. The tag stays; no header is read.
 * Refusals, in order: 4, 5, 10, 12. */
uint32_t cue_move(const uint8_t *image, size_t image_len, const uint64_t *table, size_t table_len, uint64_t pointer, int64_t distance, uint64_t *moved);

/* How far the pointer's address is from either end of its object's body: from_start is address - base, negative before the
 * body; to_end is base + size - address, negative past the end, in spare bytes too. Their sum is the size. n bytes from the
 * address on are inside the body exactly where from_start >= 0 and to_end >= n. The address need not be inside the body, only
 * in the pointer's slot or frame: wherever cue_move leads to.
 * Refusals, in order: 4, 5, 10, 11; never 13. */
uint32_t cue_distances(const uint8_t *image, size_t image_len, const uint64_t *table, size_t table_len, uint64_t pointer, int64_t *from_start, int64_t *to_end);

/* Type descriptors as bytes of an array: a plain type; a record, which its fields follow; a field. Constant expressions where
 * the arguments are:
 *     static const uint8_t types[] = {
 *         CUE_PLAIN(1, 4),                                              type 1: 4 bytes
 *         CUE_RECORD(2, 12, 2), CUE_FIELD(0, 1), CUE_FIELD(8, 1),       type 2: 12 bytes, with type 1 at 0 and at 8
 *     }; */
#define CUE_BYTES_2(n) (uint8_t)((n) & 0xFF), (uint8_t)((n) >> 8 & 0xFF)
#define CUE_BYTES_4(n) CUE_BYTES_2(n), CUE_BYTES_2((uint32_t)(n) >> 16)
#define CUE_DESCRIPTOR(length, kind, type, size) CUE_BYTES_4(length), CUE_BYTES_2(kind), CUE_BYTES_2(type), CUE_BYTES_4(size)
#define CUE_PLAIN(type, size) CUE_DESCRIPTOR(12, 4, type, size)
#define CUE_RECORD(type, size, fields) CUE_DESCRIPTOR(12 + 6 * (fields), 5, type, size)
#define CUE_FIELD(offset, type) CUE_BYTES_4(offset), CUE_BYTES_2(type)

/* Type check before a cast: yes is 1 where the object's type has the wanted one at the pointer's distance from the object's
 * start, 0 where it has not. A type has another one at an offset when it is that type and the offset is 0, or when one of its
 * fields has it there. So the answer is 0 before the start, between fields, at the end and past it, and for a type that is not
 * listed. Nothing is written.
 * The list holds descriptors, little-endian, one behind the other up to its end: length (4 bytes, fields included), kind (2: 4
 * for a plain type, 5 for a record), type (2), size (4); a record's fields of 6 bytes: offset (4), type (2). A field names a
 * type described before its record, starts at or after the end of the field before it, and fits inside its record's size.
 * Refusals, in order: 4, 5, 24 (a descriptor is cut short, of an unknown kind, of size 0, of a length that is not 12 or, for a
 * record, 12 and whole fields, of a type described before it, or has a bad field; whatever the pointer), 10, 11, 25 (the
 * object's type is not listed, or the object has fewer bytes than it is described with). */
uint32_t cue_has_type(const uint8_t *image, size_t image_len, const uint64_t *table, size_t table_len, const uint8_t *descriptors, size_t descriptors_len, uint64_t pointer, uint16_t wanted, uint64_t *yes);

/* Loads 1 to 8 bytes, little-endian.
 * Refusals, in order: 4, 5, 14, 10, 11, 13. */
uint32_t cue_load(const uint8_t *image, size_t image_len, const uint64_t *table, size_t table_len, uint64_t pointer, uint64_t width, uint64_t *value);

/* Stores a value below 256^width in 1 to 8 bytes, little-endian: a 24-bit sample takes 3.
 * Refusals, in order: 4, 5, 14, 16, 10, 11, 13. */
uint32_t cue_store(uint8_t *image, size_t image_len, const uint64_t *table, size_t table_len, uint64_t pointer, uint64_t width, uint64_t value);

/* Frees the object whose base the pointer is, merges with free neighbours, zeroes the rest and the table entry. The free
 * total grows by the object's extent. On an image that only these calls have written since cue_setup, through pointers of
 * live objects, two objects may be freed in either order: image and table are then the same.
 * Refusals, in order: 4, 5, 10, 11, 15, 7 (also where the walk from 16 misses the header, or the next one is unsound),
 * 22 (the free total would exceed image_len - 16). */
uint32_t cue_free(uint8_t *image, size_t image_len, uint64_t *table, size_t table_len, uint64_t pointer);

/* Frees all objects of a cue and gives how many, 0 where it has none; image and table are as if each had been freed by
 * cue_free, in address order. Two cues may be released in either order where two objects may be freed so: image, table and
 * both numbers are the same.
 * Refusals, in order: 4, 5, 7 (wherever in the image), 21, 22 (the free total would exceed image_len - 16, with all of
 * the objects' extents; also where the cue has none). */
uint32_t cue_release(uint8_t *image, size_t image_len, uint64_t *table, size_t table_len, uint32_t cue, uint64_t *count);

/* Sets length bytes to one value.
 * Refusals, in order: 4, 5, 6, 10, 11, 13. */
uint32_t cue_fill(uint8_t *image, size_t image_len, const uint64_t *table, size_t table_len, uint64_t pointer, uint32_t length, uint8_t value);

/* Copies length bytes as if all were read first: source and target may overlap.
 * Refusals, in order: 4, 5, 6, the target's 10, 11, 13, the source's 10, 11, 13. */
uint32_t cue_copy(uint8_t *image, size_t image_len, const uint64_t *table, size_t table_len, uint64_t target, uint64_t source, uint32_t length);

/* Compares length bytes: order is -1 or 1 as the left's first differing byte, unsigned, is below or above the right's,
 * and 0 where none differs. A zero byte does not end it.
 * Refusals, in order: 4, 5, 6, the left's 10, 11, 13, the right's 10, 11, 13. */
uint32_t cue_compare(const uint8_t *image, size_t image_len, const uint64_t *table, size_t table_len, uint64_t left, uint64_t right, uint32_t length, int64_t *order);

/* Copies a text, all bytes from the source's address up to and including the first zero byte, as if all were read first:
 * source and target may overlap. Gives the number of bytes copied, the zero byte included: a text of 5 letters is 6.
 * Refusals, in order: 4, 5, the source's 10, 11, 13 (for its first byte), 20, the target's 10, 11, 13 (for all of them). */
uint32_t cue_copy_text(uint8_t *image, size_t image_len, const uint64_t *table, size_t table_len, uint64_t target, uint64_t source, uint64_t *copied);

/* Walks the image: live objects, and in bytes the sum of their sizes, the sum of the extents of free blocks, and the
 * overhead: 16 for each live header, and the at most 15 spare bytes behind each object. Live, free and overhead bytes
 * are image_len - 16 in all.
 * Refusals, in order: 4, 5, 7. */
uint32_t cue_tally(const uint8_t *image, size_t image_len, const uint64_t *table, size_t table_len, uint64_t *objects, uint64_t *live_bytes, uint64_t *free_bytes, uint64_t *overhead_bytes);

/* The free bytes as the superblock has them, without a walk. On an image that only these calls have written since
 * cue_setup, through pointers of live objects, they are cue_tally's; on a damaged one any 32-bit number.
 * Refusals, in order: 4, 5. */
uint32_t cue_free_total(const uint8_t *image, size_t image_len, const uint64_t *table, size_t table_len, uint64_t *total);

/* A repeatable load, under which controllers are accepted: sets the store up, whatever image and table held, and makes one
 * call for each draw: an allocate of 1 to 97 bytes, a free, or a store of one byte, with at most 64 objects live. Which it is
 * follows from a 64-bit generator, begun at state, and from the objects that live: docs/FORMAT.md has the rule. Each call's
 * record is written into the log, which the program replay runs again: 10 bytes for an allocate, 12 for a free, 22 for a
 * store. An allocate that finds no space is recorded too, and counts. state_after is the generator's state after the last
 * recorded draw, or state where there is none; written is the number of log bytes written. The bytes behind them stay.
 * Refusals, in order: 1, 2, 3, then 23 (the log has no space for the next record, whose call is not made). 23 is the one
 * exception to unchanged bytes and values of 0: the set-up, the records before, what their calls have done to image and
 * table, and both values stand. */
uint32_t cue_traffic(uint8_t *image, size_t image_len, uint64_t *table, size_t table_len, uint32_t slot_exponent, uint64_t state, uint64_t draws, uint8_t *log, size_t log_len, uint64_t *state_after, uint64_t *written);

/* Which buffer to allocate first: an order of these sizes in which few objects are large-framed, so that few loads and stores
 * read the table. It holds for a store that was just set up with this slot exponent, or whose objects were all freed, and for
 * objects that are allocated one after the other, none freed in between. No image is read.
 * Orders of the sizes' positions, counted from 0, are tried lexicographically, at most budget of them. order is the first with
 * the fewest large-framed objects: its lowest byte is the position of the object to allocate first, the next byte that of the
 * second, and bytes behind the last are 0. large is how many are large-framed then. tried is the lesser of budget and all
 * orders, 1, 2, 6, 24, 120, 720, 5,040 or 40,320 for 1 to 8 sizes: where that is all of them, no order has fewer. floor is how
 * many are large-framed wherever they stand, those with 17 + size > 2^s: no order has fewer, tried or not.
 * Refusals, in order: 26 (no size or more than 8, a size above 65535, or a slot exponent outside 6..15), 27 (budget 0). */
uint32_t cue_order(const uint32_t *sizes, size_t count, uint32_t slot_exponent, uint64_t budget, uint64_t *order, uint64_t *large, uint64_t *tried, uint64_t *floor);

/* What objects of these sizes take with this store's headers, and what they take in the padded blocks of baggy bounds, for
 * those who compare the two. No image is read.
 * raw is the sum of the sizes; with_headers has 16 bytes more for each. padded is the sum of the padded blocks: each is the
 * lowest power of two not under the size, with a least block of 16 bytes. end is where the last of them ends when they go, in
 * the list's order from 0, each to the lowest multiple of its own padded size not before the previous end: the gaps are
 * end - padded bytes. Both overheads are fractions left unreduced: headers_extra, with_headers - raw, over headers_over, and
 * padded_extra, padded - raw without the gaps, over padded_over. What they are over is raw; for an empty list, whose sums are
 * all 0, it is 1. raw, padded and end are at most 2^32, with_headers at most 2^32 + 2^20.
 * Refusals, in order: 28 (more than 65,536 sizes), 29 (a size outside 1..65,536). */
uint32_t cue_overhead(const uint32_t *sizes, size_t count, uint64_t *raw, uint64_t *with_headers, uint64_t *padded, uint64_t *end, uint64_t *headers_extra, uint64_t *headers_over, uint64_t *padded_extra, uint64_t *padded_over);

#ifdef __cplusplus
}
#endif

#endif
