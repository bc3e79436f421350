/* The calls of include/cueledger.h in hand-written C, as fast as the machine lets them be: the bench's column `floor`.
 * Each answers as the export of that name does, on every input: the same refusals in the same order, the same values, and
 * the same bytes in image and table. For x86-64: numbers are read as they lie, little-endian. */
#include "../include/cueledger.h"
#include <string.h>

#define INLINE static inline __attribute__((always_inline))
#define LENT_TO_READ const uint8_t *image, size_t length, const uint64_t *table, size_t entries
#define LENT_TO_ACCESS uint8_t *image, size_t length, const uint64_t *table, size_t entries
#define LENT_TO_CHANGE uint8_t *image, size_t length, uint64_t *table, size_t entries

/* Refusals leave a call at its label `refused`, where its values are zeroed. */
#define REFUSE_IF(condition, number) \
    if (condition) { refusal = number; goto refused; }
#define TRY(test) REFUSE_IF((refusal = (test)), refusal)

/* How every call but set-up begins: 4, 5; s is the slot exponent. */
#define OPEN \
    unsigned s; \
    uint32_t refusal; \
    (void)table; \
    TRY(test_store(image, length, entries, &s))

enum { HEADER = 16, FIRST = 16, TOTAL = 12, FREE = 1, LIVE = 2, MAX_SPARE = 15, SMALL = 1 << 15 };

static const size_t MIN_LENGTH = 64, MAX_LENGTH = 1 << 30;

/* ---- bytes */

INLINE uint64_t read2(const uint8_t *at) { uint16_t n; memcpy(&n, at, 2); return n; }
INLINE uint64_t read4(const uint8_t *at) { uint32_t n; memcpy(&n, at, 4); return n; }
INLINE uint64_t read8(const uint8_t *at) { uint64_t n; memcpy(&n, at, 8); return n; }
INLINE void write2(uint8_t *at, uint64_t n) { memcpy(at, &n, 2); }
INLINE void write4(uint8_t *at, uint64_t n) { memcpy(at, &n, 4); }
INLINE void write8(uint8_t *at, uint64_t n) { memcpy(at, &n, 8); }

/* The number in 1 to 8 bytes. */
INLINE uint64_t read_number(const uint8_t *at, uint64_t width)
{
    switch (width) {
    case 1: return *at;
    case 2: return read2(at);
    case 3: return read2(at) | (uint64_t)at[2] << 16;
    case 4: return read4(at);
    case 5: return read4(at) | (uint64_t)at[4] << 32;
    case 6: return read4(at) | read2(at + 4) << 32;
    case 7: return read4(at) | read4(at + 3) << 24;
    default: return read8(at);
    }
}

/* The low bytes of a number, 1 to 8 of them. */
INLINE void write_number(uint8_t *at, uint64_t width, uint64_t n)
{
    switch (width) {
    case 1: *at = (uint8_t)n; break;
    case 2: write2(at, n); break;
    case 3: write2(at, n), at[2] = (uint8_t)(n >> 16); break;
    case 4: write4(at, n); break;
    case 5: write4(at, n), at[4] = (uint8_t)(n >> 32); break;
    case 6: write4(at, n), write2(at + 4, n >> 32); break;
    case 7: write4(at, n), write4(at + 3, n >> 24); break;
    default: write8(at, n);
    }
}

/* The sixteen bytes of a header, or of the superblock: fields of 4, 2, 2, 4 and 4 bytes. */
INLINE void write_header(uint8_t *at, uint64_t extent, uint64_t kind, uint64_t type, uint64_t size, uint64_t last)
{
    write8(at, extent | kind << 32 | type << 48);
    write8(at + 8, size | last << 32);
}

/* One free block between two machine addresses, all else in it zero. */
INLINE void write_free(uintptr_t from, uintptr_t to)
{
    write_header((uint8_t *)from, to - from, FREE, 0, 0, 0);
    memset((uint8_t *)from + HEADER, 0, to - from - HEADER);
}

/* ---- frames and pointers */

INLINE uint64_t address_of(uint64_t pointer) { return pointer & 0xffffffffffff; }

/* The bits by which an object's header place and the byte behind its body differ: its wrapper frame has as many bits as these. */
INLINE uint64_t differing(uint64_t h, uint64_t size) { return h ^ (h + HEADER + size); }

/* Whether an object is small-framed. */
INLINE int in_slot(unsigned s, uint64_t h, uint64_t size) { return differing(h, size) >> s == 0; }

/* The exponent of a wrapper frame. */
INLINE unsigned wrapper(uint64_t h, uint64_t size) { return 64 - (unsigned)__builtin_clzll(differing(h, size)); }

/* The table entry of the frame of 2^exponent bytes, more than a slot, that holds the address. */
INLINE uint64_t entry_of(unsigned s, unsigned exponent, uint64_t address)
{
    unsigned above = exponent - s - 1;
    return 48 * (address >> exponent << above) + above;
}

/* ---- tests that calls share */

/* 4, 5; gives the slot exponent. The superblock's first 8 bytes are 16, 3 and s; rotated by 16 bits, s is the lowest field. */
INLINE uint32_t test_store(const uint8_t *image, size_t length, size_t entries, unsigned *s)
{
    if (length - MIN_LENGTH > MAX_LENGTH - MIN_LENGTH)
        return CUE_BAD_SUPERBLOCK;
    uint64_t first = read8(image), above_6 = (first << 16 | first >> 48) - 0x3000000100006;
    if (above_6 > 15 - 6 || read4(image + 8) != length)
        return CUE_BAD_SUPERBLOCK;
    *s = (unsigned)above_6 + 6;
    return entries < CUE_TABLE_ENTRIES(length, *s) ? CUE_SHORT_TABLE : CUE_ACCEPTED;
}

/* An object, and how far a pointer's address is behind its base, negative before it. */
struct object {
    uint64_t h, extent, size, offset;
};

/* Whether h, any number, has the sound header of a live block. */
INLINE int is_live(const uint8_t *image, size_t length, uint64_t h, struct object *o)
{
    if (h - FIRST > length - HEADER - FIRST)
        return 0;
    o->h = h;
    o->extent = read4(image + h);
    o->size = read4(image + h + 8);
    return read2(image + h + 4) == LIVE && o->extent - HEADER - o->size <= MAX_SPARE && o->extent <= length - h;
}

/* 10, 11; gives the pointer's object. A small-framed one's place is made from the address, and is in its slot. */
INLINE uint32_t read_tag(const uint8_t *image, size_t length, const uint64_t *table, unsigned s, uint64_t pointer, struct object *o)
{
    uint64_t address = address_of(pointer), tag = pointer >> 48;
    if (tag & SMALL) {
        uint64_t slot = UINT64_MAX << s;
        tag -= SMALL;
        if (tag & slot)
            return CUE_BAD_TAG;
        if (!is_live(image, length, (address & slot) + tag, o) || !in_slot(s, o->h, o->size))
            return CUE_DANGLING;
    } else {
        if (tag <= s || tag > 31)
            return CUE_BAD_TAG;
        if (address >> tag << tag >= length || !is_live(image, length, table[entry_of(s, (unsigned)tag, address)], o))
            return CUE_DANGLING;
        if ((o->h ^ address) >> tag || differing(o->h, o->size) >> (tag - 1) != 1)
            return CUE_DANGLING;
    }
    o->offset = address - HEADER - o->h;
    return CUE_ACCEPTED;
}

/* 10, 11, 13; gives the object. */
INLINE uint32_t test_access(const uint8_t *image, size_t length, const uint64_t *table, unsigned s, uint64_t pointer, uint64_t bytes,
                            struct object *o)
{
    uint32_t refusal = read_tag(image, length, table, s, pointer, o);
    if (refusal)
        return refusal;
    /* the first is negative before the base, the second where the last byte is behind the body */
    return (int64_t)(o->offset | (o->size - bytes - o->offset)) < 0 ? CUE_OUT_OF_BOUNDS : CUE_ACCEPTED;
}

/* A block passed on a walk. */
struct block {
    uint64_t extent, size, cue;
    int is_free, is_sound;
};

/* The block whose header is at a machine address, by which walks go: an offset would take one more step to the next block. That the
 * image has a header's bytes there, and that the block ends in it, is left to the walk. */
INLINE struct block read_block(uintptr_t at)
{
    const uint8_t *header = (const uint8_t *)at;
    struct block b = {.extent = read4(header), .size = read4(header + 8), .cue = read4(header + 12)};
    b.is_free = read2(header + 4) != LIVE;
    if (b.is_free)
        b.is_sound = read4(header + 4) == FREE && read8(header + 8) == 0 && b.extent >= HEADER;
    else
        b.is_sound = b.extent - HEADER - b.size <= MAX_SPARE;
    return b;
}

/* Whether a sound block is an object of the cue. */
INLINE int carries(struct block b, uint32_t cue) { return !b.is_free && b.cue == cue; }

/* ---- the calls */

/* A fresh store. A function of its own, so that a refused set-up saves no registers. */
static __attribute__((noinline)) uint32_t write_store(uint8_t *image, size_t length, uint64_t *table, size_t used, uint32_t s)
{
    write_header(image, FIRST, 3, s, length, length - FIRST);
    write_free((uintptr_t)image + FIRST, (uintptr_t)image + length);
    memset(table, 0, used * sizeof *table);
    return CUE_ACCEPTED;
}

/* 1, 2, 3. */
uint32_t floor_setup(LENT_TO_CHANGE, uint32_t s)
{
    if (s - 6 > 15 - 6)
        return CUE_BAD_EXPONENT;
    if (length - MIN_LENGTH > MAX_LENGTH - MIN_LENGTH)
        return CUE_BAD_LENGTH;
    size_t used = CUE_TABLE_ENTRIES(length, s);
    return entries < used ? CUE_TOO_FEW_ENTRIES : write_store(image, length, table, used, s);
}

/* 4, 5, 7 or 8, 9, 22. A block that ends behind the image is found by the next step, or when it is taken. */
uint32_t floor_allocate_for(LENT_TO_CHANGE, uint32_t size, uint16_t type, uint32_t cue, uint64_t *pointer)
{
    OPEN;
    uint64_t need = HEADER + (uint64_t)size, tag, *entry = NULL;
    uintptr_t at = (uintptr_t)image + FIRST, end = (uintptr_t)image + length;
    struct block b;
    for (;; at += b.extent) {
        REFUSE_IF(at > end - HEADER, at == end ? CUE_NO_SPACE : CUE_UNSOUND);
        b = read_block(at);
        REFUSE_IF(!b.is_sound, CUE_UNSOUND);
        if (b.is_free && b.extent >= need)
            break;
    }
    REFUSE_IF(b.extent > end - at, CUE_UNSOUND);
    uint64_t h = at - (uintptr_t)image;
    if (in_slot(s, h, size)) {
        tag = SMALL | (h & ~(UINT64_MAX << s));
    } else {
        tag = wrapper(h, size);
        entry = &table[entry_of(s, (unsigned)tag, h)];
        REFUSE_IF(*entry, CUE_ENTRY_TAKEN);
    }
    uint64_t rest = b.extent - need, live = rest < HEADER ? b.extent : need, total = read4(image + TOTAL);
    REFUSE_IF(total < live, CUE_WRONG_TOTAL);
    if (entry)
        *entry = h;
    write_header(image + h, live, LIVE, type, size, cue);
    if (rest >= HEADER)
        write_header(image + h + need, rest, FREE, 0, 0, 0);
    write4(image + TOTAL, total - live);
    *pointer = tag << 48 | (h + HEADER);
    return CUE_ACCEPTED;
refused:
    *pointer = 0;
    return refusal;
}

/* For cue 0. */
uint32_t floor_allocate(LENT_TO_CHANGE, uint32_t size, uint16_t type, uint64_t *pointer)
{
    return floor_allocate_for(image, length, table, entries, size, type, 0, pointer);
}

/* 4, 5, 10, 12. A move inside slot or frame changes only the pointer's bits below its exponent. */
uint32_t floor_move(LENT_TO_READ, uint64_t pointer, int64_t distance, uint64_t *moved)
{
    OPEN;
    uint64_t tag = pointer >> 48, to = pointer + (uint64_t)distance, exponent = s;
    if (tag & SMALL) {
        REFUSE_IF((tag - SMALL) >> s, CUE_BAD_TAG);
    } else {
        REFUSE_IF(tag <= s || tag > 31, CUE_BAD_TAG);
        exponent = tag;
    }
    REFUSE_IF((to ^ pointer) >> exponent, CUE_LEAVES);
    *moved = to;
    return CUE_ACCEPTED;
refused:
    *moved = 0;
    return refusal;
}

/* 4, 5, 10, 11. */
uint32_t floor_distances(LENT_TO_READ, uint64_t pointer, int64_t *from_start, int64_t *to_end)
{
    struct object o;
    OPEN;
    TRY(read_tag(image, length, table, s, pointer, &o));
    *from_start = (int64_t)o.offset;
    *to_end = (int64_t)(o.size - o.offset);
    return CUE_ACCEPTED;
refused:
    *from_start = *to_end = 0;
    return refusal;
}

/* 4, 5, 14, 10, 11, 13. */
uint32_t floor_load(LENT_TO_READ, uint64_t pointer, uint64_t width, uint64_t *value)
{
    struct object o;
    OPEN;
    REFUSE_IF(width - 1 > 8 - 1, CUE_BAD_WIDTH);
    TRY(test_access(image, length, table, s, pointer, width, &o));
    *value = read_number(image + address_of(pointer), width);
    return CUE_ACCEPTED;
refused:
    *value = 0;
    return refusal;
}

/* 4, 5, 14, 16, 10, 11, 13. */
uint32_t floor_store(LENT_TO_ACCESS, uint64_t pointer, uint64_t width, uint64_t value)
{
    struct object o;
    OPEN;
    REFUSE_IF(width - 1 > 8 - 1, CUE_BAD_WIDTH);
    REFUSE_IF(value >> (8 * width - 8) > UINT8_MAX, CUE_TOO_LARGE);
    TRY(test_access(image, length, table, s, pointer, width, &o));
    write_number(image + address_of(pointer), width, value);
    return CUE_ACCEPTED;
refused:
    return refusal;
}

/* 4, 5, 10, 11, 15, 7, 22. A block on the walk that ends behind the image passes h too. */
uint32_t floor_free(LENT_TO_CHANGE, uint64_t pointer)
{
    struct object o;
    OPEN;
    TRY(read_tag(image, length, table, s, pointer, &o));
    REFUSE_IF(o.offset, CUE_NOT_BASE);
    uintptr_t at = (uintptr_t)image + FIRST, end = (uintptr_t)image + length, header = (uintptr_t)image + o.h;
    uintptr_t from = header, to = header + o.extent;
    while (at < header) {
        struct block b = read_block(at);
        REFUSE_IF(!b.is_sound, CUE_UNSOUND);
        from = b.is_free ? at : header;
        at += b.extent;
    }
    REFUSE_IF(at > header, CUE_UNSOUND);
    if (to < end) {
        REFUSE_IF(to > end - HEADER, CUE_UNSOUND);
        struct block next = read_block(to);
        REFUSE_IF(!next.is_sound || next.extent > end - to, CUE_UNSOUND);
        to += next.is_free ? next.extent : 0;
    }
    uint64_t total = read4(image + TOTAL) + o.extent;
    REFUSE_IF(total > length - FIRST, CUE_WRONG_TOTAL);
    write_free(from, to);
    write4(image + TOTAL, total);
    if (!(pointer >> 63))
        table[entry_of(s, (unsigned)(pointer >> 48), o.h)] = 0;
    return CUE_ACCEPTED;
refused:
    return refusal;
}

/* 4, 5, 7, 21, 22. One walk makes every test; a second one, over the cue's objects, writes each run of blocks that become one, once. */
uint32_t floor_release(LENT_TO_CHANGE, uint32_t cue, uint64_t *count)
{
    OPEN;
    /* the free block that ends where the walk stands, or 0; and where the second walk begins: an object of the cue, and the free block before it */
    uintptr_t before = 0, first = 0, before_first = 0;
    uintptr_t at = (uintptr_t)image + FIRST, end = (uintptr_t)image + length;
    uint64_t objects = 0, total = read4(image + TOTAL), lost = 0;
    struct block b;
    for (; at <= end - HEADER; at += b.extent) {
        b = read_block(at);
        REFUSE_IF(!b.is_sound, CUE_UNSOUND);
        if (carries(b, cue)) {
            uint64_t h = at - (uintptr_t)image;
            if (!in_slot(s, h, b.size))
                lost |= table[entry_of(s, wrapper(h, b.size), h)] ^ h;
            if (!objects)
                first = at, before_first = before;
            objects++;
            total += b.extent;
        }
        before = b.is_free ? at : 0;
    }
    REFUSE_IF(at != end, CUE_UNSOUND);
    REFUSE_IF(lost, CUE_ENTRY_LOST);
    REFUSE_IF(total > length - FIRST, CUE_WRONG_TOTAL);
    if (objects)
        at = first, before = before_first, b = read_block(at);
    /* b, behind a run, is read before the run is written: a header behind fresh zeros is slow to read */
    for (uint64_t left = objects; left; before = 0) {
        for (; !carries(b, cue); b = read_block(at)) {
            before = b.is_free ? at : 0;
            at += b.extent;
        }
        uintptr_t from = before ? before : at;
        do {
            uint64_t h = at - (uintptr_t)image;
            if (!in_slot(s, h, b.size))
                table[entry_of(s, wrapper(h, b.size), h)] = 0;
            left--;
            at += b.extent;
            if (at == end)
                break;
            b = read_block(at);
            /* one free block behind an object goes with it; another behind that one does not */
            if (b.is_free && (at += b.extent) != end)
                b = read_block(at);
        } while (at != end && carries(b, cue));
        write_free(from, at);
    }
    write4(image + TOTAL, total);
    *count = objects;
    return CUE_ACCEPTED;
refused:
    *count = 0;
    return refusal;
}

/* 4, 5, 6, 10, 11, 13. */
uint32_t floor_fill(LENT_TO_ACCESS, uint64_t pointer, uint32_t bytes, uint8_t value)
{
    struct object o;
    OPEN;
    REFUSE_IF(!bytes, CUE_EMPTY);
    TRY(test_access(image, length, table, s, pointer, bytes, &o));
    memset(image + address_of(pointer), value, bytes);
    return CUE_ACCEPTED;
refused:
    return refusal;
}

/* 4, 5, 6, the target's 10, 11, 13, the source's. */
uint32_t floor_copy(LENT_TO_ACCESS, uint64_t target, uint64_t source, uint32_t bytes)
{
    struct object o;
    OPEN;
    REFUSE_IF(!bytes, CUE_EMPTY);
    TRY(test_access(image, length, table, s, target, bytes, &o));
    TRY(test_access(image, length, table, s, source, bytes, &o));
    memmove(image + address_of(target), image + address_of(source), bytes);
    return CUE_ACCEPTED;
refused:
    return refusal;
}

/* 4, 5, 6, the left's 10, 11, 13, the right's. */
uint32_t floor_compare(LENT_TO_READ, uint64_t left, uint64_t right, uint32_t bytes, int64_t *order)
{
    struct object o;
    OPEN;
    REFUSE_IF(!bytes, CUE_EMPTY);
    TRY(test_access(image, length, table, s, left, bytes, &o));
    TRY(test_access(image, length, table, s, right, bytes, &o));
    int difference = memcmp(image + address_of(left), image + address_of(right), bytes);
    *order = (difference > 0) - (difference < 0);
    return CUE_ACCEPTED;
refused:
    *order = 0;
    return refusal;
}

/* 4, 5, the source's 10, 11, 13, 20, the target's 10, 11, 13. */
uint32_t floor_copy_text(LENT_TO_ACCESS, uint64_t target, uint64_t source, uint64_t *copied)
{
    struct object o;
    OPEN;
    TRY(test_access(image, length, table, s, source, 1, &o));
    const uint8_t *text = image + address_of(source), *zero = memchr(text, 0, o.size - o.offset);
    REFUSE_IF(!zero, CUE_UNTERMINATED);
    uint64_t bytes = (uint64_t)(zero - text) + 1;
    TRY(test_access(image, length, table, s, target, bytes, &o));
    memmove(image + address_of(target), text, bytes);
    *copied = bytes;
    return CUE_ACCEPTED;
refused:
    *copied = 0;
    return refusal;
}

/* 4, 5, 7. What is neither live nor free is overhead. */
uint32_t floor_tally(LENT_TO_READ, uint64_t *objects, uint64_t *live_bytes, uint64_t *free_bytes, uint64_t *overhead_bytes)
{
    OPEN;
    uint64_t live = 0, sizes = 0, extents = 0;
    uintptr_t at = (uintptr_t)image + FIRST, end = (uintptr_t)image + length;
    struct block b;
    for (; at <= end - HEADER; at += b.extent) {
        b = read_block(at);
        REFUSE_IF(!b.is_sound, CUE_UNSOUND);
        if (b.is_free)
            extents += b.extent;
        else
            live++, sizes += b.size;
    }
    REFUSE_IF(at != end, CUE_UNSOUND);
    *objects = live;
    *live_bytes = sizes;
    *free_bytes = extents;
    *overhead_bytes = length - FIRST - sizes - extents;
    return CUE_ACCEPTED;
refused:
    *objects = *live_bytes = *free_bytes = *overhead_bytes = 0;
    return refusal;
}

/* 4, 5. */
uint32_t floor_free_total(LENT_TO_READ, uint64_t *total)
{
    OPEN;
    *total = read4(image + TOTAL);
    return CUE_ACCEPTED;
refused:
    *total = 0;
    return refusal;
}
