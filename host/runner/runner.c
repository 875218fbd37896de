/*
 * Makes the calls of the comparison on the library. Batches come in on standard
 * input, replies go out on standard output; host/src/wire.rs describes both. The
 * numbers on the line are least byte first, as on every x86-64 machine.
 *
 * All that the library is lent stands between guard bytes and beside a copy.
 * After each call the guards are tested, and what differs from the copy is
 * reported, word by word and byte by byte.
 *
 * Every call is made on a stack of 2,048 bytes (small_stack.h), and what it used
 * of it is reported too. `runner --test` only tests that stack.
 */
#include <inttypes.h>
#include <stdio.h>
#include <stdlib.h>
#include <string.h>
#include "calls.h"
#include "small_stack.h"

enum { GUARD = 64, GUARD_BYTE = 0xA5, BLOCK = 4096, HEAD = 15 };

/* The bits of a reply's faults, in the order of FAULTS in wire.rs. */
enum fault {
    BESIDE_WORDS, BESIDE_SHARING, BESIDE_MEM, BESIDE_FIELDS, BESIDE_PACKED, BESIDE_ARG1,
    INTO_SHARING, INTO_WORDS, INTO_MEM, INTO_FIELDS, BESIDE_PAGES, INTO_PAGES
};

enum function {
    COMMAND, CONFIGURE, INVALIDATE, WIRING, UNPACK, PACK, PRIVILEGED, RESPOND, WAITING, FUNCTIONS
};

static const struct {
    const char *name;
    small *make;
} functions[FUNCTIONS] = {
    [COMMAND] = {"tcu_command", call_tcu_command},
    [CONFIGURE] = {"tcu_configure", call_tcu_configure},
    [INVALIDATE] = {"tcu_invalidate", call_tcu_invalidate},
    [WIRING] = {"tcu_wiring", call_tcu_wiring},
    [UNPACK] = {"tcu_unpack", call_tcu_unpack},
    [PACK] = {"tcu_pack", call_tcu_pack},
    [PRIVILEGED] = {"tcu_privileged", call_tcu_privileged},
    [RESPOND] = {"tcu_respond", call_tcu_respond},
    [WAITING] = {"tcu_waiting", call_tcu_waiting},
};

/* A slice that is lent: guard, data, guard; and a copy of the data. */
struct lent {
    unsigned char *block;
    unsigned char *data;
    unsigned char *copy;
    size_t bytes;
};

/* The fields are also the list of tcu_waiting. */
static struct lent pages, words, sharing, mem, fields, packed, arg1;

/* The ranges of the memory that the last call has changed. */
static struct range {
    size_t start, end;
} *ranges;
static size_t range_count, range_room;

/* A call as it comes in; the page counts, the fields and the packed words follow it. */
struct call {
    uint64_t function, tiles, pages_len, words_len, sharing_len, mem_len;
    uint64_t tile, endpoint, numbers[5];
    uint64_t fields_len, packed_len;
};

static void fail(const char *what)
{
    fprintf(stderr, "runner: %s\n", what);
    exit(2);
}

static void take(void *to, size_t bytes)
{
    if (bytes != 0 && fread(to, bytes, 1, stdin) != 1)
        fail("the input ends within a batch");
}

static void put(const void *from, size_t bytes)
{
    if (bytes != 0 && fwrite(from, bytes, 1, stdout) != 1)
        fail("cannot write");
}

static void put_number(uint64_t number)
{
    put(&number, sizeof number);
}

/* Makes room for a slice of this size, with fresh guards around it. */
static void lend(struct lent *slice, size_t bytes)
{
    slice->block = realloc(slice->block, bytes + 2 * GUARD);
    slice->copy = realloc(slice->copy, bytes + 1);
    if (slice->block == NULL || slice->copy == NULL)
        fail("no memory left");
    slice->data = slice->block + GUARD;
    slice->bytes = bytes;
    memset(slice->block, GUARD_BYTE, GUARD);
    memset(slice->data + bytes, GUARD_BYTE, GUARD);
}

static void copy(struct lent *slice)
{
    memcpy(slice->copy, slice->data, slice->bytes);
}

static int changed(const struct lent *slice)
{
    return memcmp(slice->copy, slice->data, slice->bytes) != 0;
}

static uint64_t guards_broken(const struct lent *slice, enum fault fault)
{
    unsigned char guard[GUARD];

    memset(guard, GUARD_BYTE, GUARD);
    if (memcmp(slice->block, guard, GUARD) == 0 &&
        memcmp(slice->data + slice->bytes, guard, GUARD) == 0)
        return 0;
    return UINT64_C(1) << fault;
}

/* What the library must not have written to. */
static uint64_t faults(const struct call *call)
{
    uint64_t found = guards_broken(&words, BESIDE_WORDS) |
                     guards_broken(&sharing, BESIDE_SHARING) |
                     guards_broken(&mem, BESIDE_MEM) | guards_broken(&fields, BESIDE_FIELDS) |
                     guards_broken(&packed, BESIDE_PACKED) | guards_broken(&arg1, BESIDE_ARG1) |
                     guards_broken(&pages, BESIDE_PAGES);
    int writes_words = call->function == COMMAND || call->function == CONFIGURE ||
                       call->function == INVALIDATE;
    int writes_sharing = call->function == COMMAND || call->function == PRIVILEGED ||
                         call->function == RESPOND;
    int writes_fields = call->function == UNPACK || call->function == WAITING;

    if (!writes_sharing && changed(&sharing))
        found |= UINT64_C(1) << INTO_SHARING;
    if (!writes_words && changed(&words))
        found |= UINT64_C(1) << INTO_WORDS;
    if (call->function != COMMAND && range_count != 0)
        found |= UINT64_C(1) << INTO_MEM;
    if (!writes_fields && changed(&fields))
        found |= UINT64_C(1) << INTO_FIELDS;
    if (changed(&pages))
        found |= UINT64_C(1) << INTO_PAGES;
    return found;
}

/* Makes one call; pages, arg1, fields and packed are already lent. */
static uint32_t make(const struct call *c, size_t *used)
{
    const uint64_t *n = c->numbers;
    struct arguments given = {
        .tiles = c->tiles,
        .pages = pages.data,
        .pages_len = c->pages_len,
        .words = (uint64_t *)words.data,
        .words_len = c->words_len,
        .sharing = (uint64_t *)sharing.data,
        .sharing_len = c->sharing_len,
        .mem = mem.data,
        .mem_len = c->mem_len,
        .tile = c->tile,
        .endpoint = c->endpoint,
        .numbers = {n[0], n[1], n[2], n[3]},
        .arg1 = (uint64_t *)arg1.data,
        .list = (uint64_t *)fields.data,
        .list_len = c->fields_len,
        .packed = (uint64_t *)packed.data,
        .packed_len = c->packed_len,
    };

    if (c->function >= FUNCTIONS)
        fail("no such function");
    return call_on_small_stack(functions[c->function].name, functions[c->function].make, &given,
                               used);
}

/* Reports the words of a slice that differ from the copy, or only counts them. */
static uint64_t changed_words(const struct lent *slice, int report)
{
    const uint64_t *now = (const uint64_t *)slice->data;
    const uint64_t *before = (const uint64_t *)slice->copy;
    uint64_t count = 0;

    if (!changed(slice))
        return 0;
    for (size_t place = 0; place < slice->bytes / sizeof *now; place++) {
        if (now[place] == before[place])
            continue;
        count++;
        if (report) {
            put_number(place);
            put_number(now[place]);
        }
    }
    return count;
}

/* The first place from `place` on where the memory differs from its copy. */
static size_t next_change(size_t place)
{
    while (place < mem.bytes) {
        size_t left = mem.bytes - place, length = left < BLOCK ? left : BLOCK;

        if (memcmp(mem.data + place, mem.copy + place, length) != 0)
            break;
        place += length;
    }
    while (place < mem.bytes && mem.data[place] == mem.copy[place])
        place++;
    return place;
}

static void note_range(size_t start, size_t end)
{
    if (range_count == range_room) {
        range_room = 2 * range_room + 16;
        ranges = realloc(ranges, range_room * sizeof *ranges);
        if (ranges == NULL)
            fail("no memory left");
    }
    ranges[range_count].start = start;
    ranges[range_count].end = end;
    range_count++;
}

/* Notes the ranges of bytes in which the memory differs from its copy. */
static void find_ranges(void)
{
    size_t start = next_change(0);

    range_count = 0;
    while (start < mem.bytes) {
        size_t end = start + 1, next = next_change(end);

        /* Bytes that stay the same by chance do not end a range. */
        while (next < mem.bytes && next - end < 16) {
            end = next + 1;
            next = next_change(end);
        }
        note_range(start, end);
        start = next;
    }
}

static void reply(uint32_t answer, size_t used, const struct call *call)
{
    uint64_t after;

    memcpy(&after, arg1.data, sizeof after);
    put_number(answer);
    put_number(call->function == COMMAND || call->function == PRIVILEGED ? after : 0);
    put_number(faults(call));
    put_number(used);
    put_number(changed_words(&words, 0));
    put_number(changed_words(&sharing, 0));
    put_number(range_count);
    changed_words(&words, 1);
    changed_words(&sharing, 1);
    for (size_t at = 0; at < range_count; at++) {
        size_t start = ranges[at].start, length = ranges[at].end - start;

        put_number(start);
        put_number(length);
        put(mem.data + start, length);
        memcpy(mem.copy + start, mem.data + start, length);
    }
    put(fields.data, fields.bytes);
    put(packed.data, packed.bytes);
}

/* Lends the bytes that stand in the batch; gives back where the next ones stand. */
static const unsigned char *lend_from(struct lent *slice, size_t bytes, const unsigned char *at)
{
    lend(slice, bytes);
    memcpy(slice->data, at, bytes);
    copy(slice);
    return at + bytes;
}

/* Runs one call from the batch; gives back where the next one starts. */
static const unsigned char *run(const unsigned char *at)
{
    struct call call;
    uint32_t answer;
    size_t used;

    memcpy(&call, at, sizeof call);
    at += sizeof call;
    at = lend_from(&pages, call.pages_len, at);
    at = lend_from(&fields, call.fields_len * 8, at);
    at = lend_from(&packed, call.packed_len * 8, at);
    lend(&arg1, sizeof(uint64_t));
    memcpy(arg1.data, &call.numbers[4], sizeof(uint64_t));
    answer = make(&call, &used);
    find_ranges();
    reply(answer, used, &call);
    copy(&words);
    copy(&sharing);
    return at;
}

/* Takes in a whole batch, then answers it. */
static void batch(void)
{
    uint64_t sizes[5];
    unsigned char *calls;
    const unsigned char *at;

    take(sizes, sizeof sizes);
    lend(&words, sizes[0] * 8);
    lend(&sharing, sizes[1] * 8);
    lend(&mem, sizes[2]);
    calls = malloc(sizes[4] + 1);
    if (calls == NULL)
        fail("no memory left");
    take(words.data, words.bytes);
    take(sharing.data, sharing.bytes);
    take(mem.data, mem.bytes);
    take(calls, sizes[4]);
    copy(&words);
    copy(&sharing);
    copy(&mem);
    at = calls;
    for (uint64_t done = 0; done < sizes[3]; done++)
        at = run(at);
    free(calls);
    if (fflush(stdout) != 0)
        fail("cannot write");
}

int main(int argc, char **argv)
{
    char mark[8];
    const char *wrong = make_small_stack();

    _Static_assert(sizeof(struct call) == HEAD * sizeof(uint64_t), "a call's head");
    if (wrong != NULL)
        fail(wrong);
    if (argc == 2 && strcmp(argv[1], "--test") == 0) {
        puts("the small stack holds 1,500 bytes; 2,100 and 4,096 meet its guard");
        return 0;
    }
    while (fread(mark, sizeof mark, 1, stdin) == 1) {
        if (memcmp(mark, "tcubatch", sizeof mark) != 0)
            fail("no batch");
        batch();
    }
    return 0;
}
