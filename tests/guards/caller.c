#include "caller.h"
#include <stdio.h>
#include <stdlib.h>
#include <string.h>

enum { BESIDE = 64 };

void caller_make(struct caller *c)
{
    static const size_t most[PARTS] = {
        [SHEET] = 1 << 16, [BYTES] = DESK_MAX_STRING_BYTES + 8, [ENDS] = (DESK_MAX_STRINGS + 8) * 4,
        [SHEET2] = 1 << 16, [BYTES2] = DESK_MAX_STRING_BYTES + 8, [ENDS2] = (DESK_MAX_STRINGS + 8) * 4,
        [FUNCTIONS] = 1 << 16, [BODY] = DESK_DECODE_WORDS(DESK_MAX_BODY) * 8 + 8 * DESK_RECORD_WORDS};
    memset(c, 0, sizeof *c);
    for (int p = 0; p < PARTS; p++)
        space_make(&c->part[p], most[p], true);
    space_make(&c->out, DESK_DECODE_WORDS(DESK_MAX_BODY) * 8 + 512, false);
    space_make(&c->work, DESK_ASSEMBLE_LABELS(DESK_MAX_TEXT) * 12 + 512, false);
    c->in = input_new();
    c->result = malloc(DESK_DECODE_WORDS(DESK_MAX_BODY) * 8);
    if (c->result == NULL)
        exit(2);
}

void caller_drop(struct caller *c)
{
    for (int p = 0; p < PARTS; p++)
        space_drop(&c->part[p]);
    space_drop(&c->out);
    space_drop(&c->work);
    input_free(c->in);
    free(c->result);
}

void fail(const struct caller *c, const char *what, struct desk_answer a, size_t out_count, size_t work_count)
{
    printf("%s, operation %d, seed %llu: %s; out %zu, entries %zu, answer %llu %llu %llu %llu\n", c->about, c->in->what,
           (unsigned long long)c->seed, what, out_count, work_count, (unsigned long long)a.number, (unsigned long long)a.place,
           (unsigned long long)a.operand, (unsigned long long)a.length);
    exit(1);
}

size_t out_element(enum operation what)
{
    return what == DECODE || what == DECODE_FUNCTION ? 8 : 1;
}

size_t work_element(enum operation what)
{
    return what == ASSEMBLE || what == CARRY ? 12 : what == LIST || what == LIST_FUNCTION || what == LIST_MODULE ? 4 : 0;
}

/* Elements of out that the result takes. */
static size_t taken(enum operation what, struct desk_answer a)
{
    return out_element(what) == 8 ? a.length * DESK_RECORD_WORDS : a.length;
}

static void enough(const struct input *in, size_t *out, size_t *work)
{
    size_t n = in->part[BODY].count;
    *work = 0;
    switch (in->what) {
    case DECODE:
    case DECODE_FUNCTION:
        *out = DESK_DECODE_WORDS(n);
        break;
    case ENCODE:
        *out = DESK_ENCODE_BYTES(n / 8);
        break;
    case ASSEMBLE:
        *out = DESK_ASSEMBLE_BYTES;
        *work = DESK_ASSEMBLE_LABELS(n);
        break;
    case CARRY:
        *out = DESK_CARRY_BYTES(n);
        *work = DESK_CARRY_LABELS(n);
        break;
    default:
        *out = DESK_LIST_BYTES;
        *work = in->labels ? DESK_LIST_ENTRIES(n) : 0;
    }
}

void lend_inputs(struct caller *c, enum layout layout)
{
    for (int p = 0; p < PARTS; p++)
        c->lent[p] = space_put(&c->part[p], c->in->part[p].at, c->in->part[p].count, layout);
}

struct desk_answer call(const struct caller *c, void *out, size_t out_count, void *work, size_t work_count,
                        const size_t more[PARTS + 2])
{
    const struct input *in = c->in;
#define SLICE(type, p) (const type *)c->lent[p], in->part[p].count / sizeof(type) + more[p]
#define TABLE(bytes, ends) SLICE(uint8_t, bytes), SLICE(uint32_t, ends)
#define AREA SLICE(uint32_t, FUNCTIONS), SLICE(uint8_t, BODY), in->base
#define SHOW in->offsets, in->labels, in->texts
#define OUT(type) (type *)out, out_count + more[PARTS]
#define WORK(type) (type)work, work_count + more[PARTS + 1]
    switch (in->what) {
    case DECODE:
        return desk_decode(SLICE(uint8_t, SHEET), SLICE(uint8_t, BODY), OUT(uint64_t));
    case DECODE_FUNCTION:
        return desk_decode_function(SLICE(uint8_t, SHEET), AREA, in->id, OUT(uint64_t));
    case ENCODE:
        return desk_encode(SLICE(uint8_t, SHEET), SLICE(uint64_t, BODY), OUT(uint8_t));
    case LIST:
        return desk_list(SLICE(uint8_t, SHEET), TABLE(BYTES, ENDS), SLICE(uint8_t, BODY), SHOW, OUT(uint8_t), WORK(uint32_t *));
    case LIST_FUNCTION:
        return desk_list_function(SLICE(uint8_t, SHEET), TABLE(BYTES, ENDS), AREA, in->id, SHOW, OUT(uint8_t), WORK(uint32_t *));
    case LIST_MODULE:
        return desk_list_module(SLICE(uint8_t, SHEET), TABLE(BYTES, ENDS), AREA, SHOW, OUT(uint8_t), WORK(uint32_t *));
    case ASSEMBLE:
        return desk_assemble(SLICE(uint8_t, SHEET), TABLE(BYTES, ENDS), SLICE(uint8_t, BODY), OUT(uint8_t),
                             WORK(uint32_t(*)[3]));
    default:
        return desk_carry(SLICE(uint8_t, SHEET), TABLE(BYTES, ENDS), SLICE(uint8_t, SHEET2), TABLE(BYTES2, ENDS2),
                          SLICE(uint8_t, BODY), OUT(uint8_t), WORK(uint32_t(*)[3]));
    }
}

static const size_t right[PARTS + 2];

static bool all(const uint8_t *at, size_t count, uint8_t byte)
{
    return count == 0 || (at[0] == byte && memcmp(at, at + 1, count - 1) == 0);
}

/* Calls with so much lent, the buffers full of marks before, and checks what holds of every answer. */
static struct desk_answer try(struct caller *c, enum layout layout, size_t out_count, size_t work_count)
{
    const enum operation what = c->in->what;
    const size_t out_bytes = out_count * out_element(what), work_bytes = work_count * work_element(what);
    uint8_t *out = space_at(&c->out, out_bytes, layout), *work = space_at(&c->work, work_bytes, layout);
    const uint8_t mark = (uint8_t)(0x80 | c->calls++), other = (uint8_t)~mark;
    /* The bytes on the side where there is no guard page. */
    uint8_t *out_beside = layout == BEFORE ? out - BESIDE : out + out_bytes;
    uint8_t *work_beside = layout == BEFORE ? work - BESIDE : work + work_bytes;
    memset(out, mark, out_bytes);
    memset(work, mark, work_bytes);
    memset(out_beside, other, BESIDE);
    memset(work_beside, other, BESIDE);

    struct desk_answer a = call(c, out, out_count, work, work_count, right);

#define CHECK(holds) \
    do { \
        if (!(holds)) \
            fail(c, "this does not hold: " #holds, a, out_count, work_count); \
    } while (0)
    CHECK(all(out_beside, BESIDE, other) && all(work_beside, BESIDE, other));
    CHECK(all(work, work_bytes, 0));
    CHECK(a.number <= DESK_REFUSALS);
    if (a.number == DESK_OK) {
        CHECK(a.place == 0 && a.operand == 0);
        CHECK(taken(what, a) <= out_count);
        const size_t result = taken(what, a) * out_element(what);
        CHECK(all(out + result, out_bytes - result, mark));
    } else {
        CHECK(a.length == 0);
        CHECK(all(out, out_bytes, 0));
        CHECK(a.number != DESK_TOO_LARGE || a.place == 0);
        CHECK(a.number != DESK_SHORT || a.place == 0);
        CHECK(a.operand <= DESK_MAX_OPERANDS);
        CHECK(a.operand == 0 || (a.number >= DESK_BAD_REGISTER && a.number <= DESK_BAD_DOUBLE) || a.number == DESK_BAD_RECORD ||
              a.number == DESK_NOT_CARRIED);
    }
    return a;
}

static bool same(struct desk_answer a, struct desk_answer b)
{
    return a.number == b.number && a.place == b.place && a.operand == b.operand && a.length == b.length;
}

static bool same_result(const struct caller *c, enum layout layout, size_t out_count, struct desk_answer a)
{
    const size_t size = out_element(c->in->what);
    return memcmp(space_at(&c->out, out_count * size, layout), c->result, taken(c->in->what, a) * size) == 0;
}

/* The fewest label entries with which the call is not refused for them. */
static size_t entries_needed(struct caller *c, enum layout layout, size_t out_count, size_t most)
{
    size_t low = 0, high = most;
    while (low < high) {
        size_t middle = low + (high - low) / 2;
        if (try(c, layout, out_count, middle).number == DESK_SHORT)
            low = middle + 1;
        else
            high = middle;
    }
    return low;
}

struct needs try_input(struct caller *c, uint64_t *r)
{
    const enum operation what = c->in->what;
    struct needs n = {0};
    size_t out_count, work_count;
    enough(c->in, &out_count, &work_count);
    lend_inputs(c, BEFORE);
    /* Most results are small; all of the room is lent where this is too little, and now and then in any case. */
    const size_t most = out_count;
    out_count = below(r, 100) == 0 ? most : DESK_LEAST(most, 4096);
    struct desk_answer a = try(c, BEFORE, out_count, work_count);
    if (a.number == DESK_SHORT) {
        out_count = most;
        a = try(c, BEFORE, out_count, work_count);
    }
    CHECK(a.number != DESK_SHORT);
    n.answer = a;
    c->numbers[what][a.number]++;
    if (a.number == DESK_OK) {
        n.out = taken(what, a);
        memcpy(c->result, space_at(&c->out, out_count * out_element(what), BEFORE), n.out * out_element(what));
        n.work = entries_needed(c, BEFORE, n.out, work_count);
    }
    for (int layout = BEFORE; layout < LAYOUTS; layout++) {
        const size_t some_out = below(r, n.out + 8), some_work = work_element(what) == 0 ? 0 : below(r, n.work + 4);
        lend_inputs(c, layout);
        out_count = n.out, work_count = n.work;
        struct desk_answer b = try(c, layout, out_count, work_count);
        CHECK(same(a, b) && same_result(c, layout, out_count, a));
        out_count = some_out, work_count = some_work;
        b = try(c, layout, out_count, work_count);
        const bool fits = some_out >= n.out && some_work >= n.work;
        if (a.number == DESK_OK && !fits)
            CHECK(b.number == DESK_SHORT);
        else
            CHECK(same(a, b) && same_result(c, layout, out_count, a));
        if (n.out > 0)
            CHECK(try(c, layout, n.out - 1, n.work).number == DESK_SHORT);
        if (n.work > 0)
            CHECK(try(c, layout, n.out, n.work - 1).number == DESK_SHORT);
    }
    const uint64_t words[] = {a.number, a.place, a.operand, a.length, n.work};
    for (size_t i = 0; i < sizeof words / sizeof words[0]; i++)
        c->sum = (c->sum ^ words[i]) * 0x100000001b3u;
    for (size_t i = 0; i < n.out * out_element(what); i++)
        c->sum = (c->sum ^ c->result[i]) * 0x100000001b3u;
    return n;
}

void random_inputs(struct caller *c, uint64_t seed, uint64_t count)
{
    c->about = "random input";
    for (uint64_t i = 0; i < count; i++) {
        c->seed = seed + i;
        input_random(c->in, c->seed);
        uint64_t r = ~c->seed;
        try_input(c, &r);
    }
}
