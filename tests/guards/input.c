#include "input.h"
#include "desk.h"
#include <stdio.h>
#include <stdlib.h>
#include <string.h>

uint64_t next(uint64_t *seed)
{
    uint64_t z = *seed += 0x9e3779b97f4a7c15u;
    z = (z ^ (z >> 30)) * 0xbf58476d1ce4e5b9u;
    z = (z ^ (z >> 27)) * 0x94d049bb133111ebu;
    return z ^ (z >> 31);
}

size_t below(uint64_t *seed, size_t n)
{
    return (size_t)(next(seed) % n);
}

static bool one_in(uint64_t *seed, size_t n)
{
    return below(seed, n) == 0;
}

static void *got(void *p)
{
    if (p == NULL) {
        fprintf(stderr, "no memory\n");
        exit(2);
    }
    return p;
}

static void grow(struct bytes *b, size_t room)
{
    if (room > b->room) {
        b->room = 2 * room;
        b->at = got(realloc(b->at, b->room));
    }
}

void put(struct bytes *b, const void *from, size_t count)
{
    grow(b, b->count + count);
    if (count > 0)
        memcpy(b->at + b->count, from, count);
    b->count += count;
}

void put_text(struct bytes *b, const char *text)
{
    put(b, text, strlen(text));
}

void put_u32(struct bytes *b, uint32_t word)
{
    put(b, &word, sizeof word);
}

static void put_byte(struct bytes *b, uint64_t byte)
{
    uint8_t low = (uint8_t)byte;
    put(b, &low, 1);
}

/* The twelve operand types: name, bytes, and a mark for the family that carrying keeps. */
static const struct {
    const char *name;
    unsigned width;
    char family;
} types[] = {{"Reg8", 1, 'r'},    {"Reg32", 4, 'r'},   {"UInt8", 1, 'u'},   {"UInt16", 2, 'u'},
             {"UInt32", 4, 'u'},  {"UInt8S", 1, 's'},  {"UInt16S", 2, 's'}, {"UInt32S", 4, 's'},
             {"Addr8", 1, 'a'},   {"Addr32", 4, 'a'},  {"Imm32", 4, 'i'},   {"Double", 8, 'd'}};
enum { TYPES = sizeof types / sizeof types[0] };

static unsigned length_of(const struct op *op)
{
    unsigned sum = 1;
    for (unsigned i = 0; i < op->types; i++)
        sum += types[op->type[i]].width;
    return sum;
}

static void make_op(struct op *op, unsigned code, uint64_t *r)
{
    static const char *const flow[] = {"Ret", "Throw", "Jmp", "JmpLong"};
    op->code = code;
    if (code < 4 && one_in(r, 2))
        snprintf(op->name, sizeof op->name, "%s", flow[code]);
    else if (one_in(r, 8))
        snprintf(op->name, sizeof op->name, "Long%044u", code);
    else
        snprintf(op->name, sizeof op->name, "%s%u", one_in(r, 2) ? "A" : "Op_", code);
    op->jump = one_in(r, 2);
    op->types = one_in(r, 6) ? 8 : (unsigned)below(r, 4);
    for (unsigned i = 0; i < op->types; i++)
        op->type[i] = (unsigned char)below(r, TYPES);
}

static void make_sheet(struct sheet *s, uint64_t *r)
{
    size_t most = one_in(r, 30) ? 256 : 12;
    s->count = 0;
    for (unsigned code = 0; code < most; code++)
        if (one_in(r, 2) || s->count == 0)
            make_op(&s->op[s->count++], code, r);
}

/* A second edition: other codes, other widths, now and then another type or an opcode less. */
static void make_edition(struct sheet *to, const struct sheet *from, uint64_t *r)
{
    unsigned code = 0;
    to->count = 0;
    for (size_t i = 0; i < from->count; i++) {
        if ((one_in(r, 60) && to->count > 0) || code > 255)
            continue;
        struct op *op = &to->op[to->count++];
        *op = from->op[i];
        op->code = code;
        code += one_in(r, 4) ? 2 : 1;
        for (unsigned k = 0; k < op->types; k++) {
            unsigned char other = (unsigned char)below(r, TYPES);
            if (types[other].family == types[op->type[k]].family || one_in(r, 100))
                op->type[k] = other;
        }
    }
}

static void write_sheet(struct bytes *b, const struct sheet *s, uint64_t *r)
{
    char line[256];
    snprintf(line, sizeof line, "version=%u\ncount=%zu\n", (unsigned)below(r, 100), s->count);
    put_text(b, line);
    for (size_t i = 0; i < s->count; i++) {
        const struct op *op = &s->op[i];
        snprintf(line, sizeof line, "op=%u name=%s jump=%d types=", op->code, op->name, op->jump);
        put_text(b, line);
        for (unsigned k = 0; k < op->types; k++) {
            put_text(b, k == 0 ? "" : ",");
            put_text(b, types[op->type[k]].name);
        }
        put_text(b, op->types == 0 ? "-\n" : "\n");
    }
}

static void make_strings(struct bytes *bytes, struct bytes *ends, uint64_t *r)
{
    static const char *const parts[] = {"a",    "b,c", "\"",   "\\", "\n", "\xc3\xa9", "\xf0\x9f\x98\x80",
                                        "\t//", "Z9",  "\x01", "\x7f"};
    size_t count = below(r, 7);
    for (size_t i = 0; i < count; i++) {
        for (size_t k = below(r, 5); k > 0; k--)
            put_text(bytes, parts[below(r, sizeof parts / sizeof parts[0])]);
        put_u32(ends, (uint32_t)bytes->count);
    }
}

/* A value that fits most often: a small number, a string's id, the distance to an instruction's start. */
static uint64_t value(unsigned type, size_t strings, size_t offset, const size_t *starts, size_t count, uint64_t *r)
{
    if (one_in(r, 40))
        return next(r);
    switch (types[type].family) {
    case 's':
        return strings == 0 ? 0 : below(r, strings);
    case 'a': {
        uint64_t distance = starts[below(r, count)] - offset;
        return types[type].width == 1 && distance + 128 > 255 ? 0 : distance;
    }
    case 'd': {
        static const uint64_t doubles[] = {0, 0x8000000000000000u, 0x3ff0000000000000u, 0x4340000000000000u, 0x7ff0000000000000u,
                                           0xfff0000000000000u, 0x7ff8000000000001u, 0x3fe0000000000000u};
        return doubles[below(r, sizeof doubles / sizeof doubles[0])];
    }
    default:
        return below(r, one_in(r, 20) ? 70000 : 200);
    }
}

static void make_body(struct bytes *b, const struct sheet *s, size_t strings, uint64_t *r)
{
    enum { MOST = 24 };
    const struct op *ops[MOST];
    size_t starts[MOST + 1], count = below(r, MOST + 1);
    starts[0] = 0;
    for (size_t i = 0; i < count; i++) {
        ops[i] = &s->op[below(r, s->count)];
        starts[i + 1] = starts[i] + length_of(ops[i]);
    }
    for (size_t i = 0; i < count; i++) {
        put_byte(b, ops[i]->code);
        for (unsigned k = 0; k < ops[i]->types; k++) {
            uint64_t v = value(ops[i]->type[k], strings, starts[i], starts, count + 1, r);
            put(b, &v, types[ops[i]->type[k]].width); /* little-endian, as the machine is */
        }
    }
}

static void make_area(struct input *in, size_t strings, uint64_t *r)
{
    in->base = (uint32_t)below(r, 1000);
    for (size_t i = one_in(r, 20) ? 0 : 1 + below(r, 4); i > 0; i--) {
        size_t start = in->part[BODY].count;
        make_body(&in->part[BODY], &in->one, strings, r);
        put_u32(&in->part[FUNCTIONS], in->base + (uint32_t)start);
        put_u32(&in->part[FUNCTIONS], (uint32_t)(in->part[BODY].count - start));
        put_u32(&in->part[FUNCTIONS], (uint32_t)below(r, strings + 2));
    }
    const size_t functions = in->part[FUNCTIONS].count / 12;
    in->id = below(r, functions == 0 || one_in(r, 8) ? functions + 2 : functions);
}

/* The body becomes the words of its records, or its listing. */
static void turn_into_records(struct input *in)
{
    struct bytes *b = &in->part[BODY];
    size_t words = DESK_DECODE_WORDS(b->count);
    uint64_t *out = got(malloc(words * 8 + 8));
    struct desk_answer a = desk_decode(in->part[SHEET].at, in->part[SHEET].count, b->at, b->count, out, words);
    b->count = 0;
    put(b, out, a.length * DESK_RECORD_WORDS * 8);
    free(out);
}

static void turn_into_listing(struct input *in, size_t strings, uint64_t *r)
{
    struct bytes *b = &in->part[BODY];
    size_t entries = DESK_LIST_ENTRIES(b->count), room = 1 << 17;
    uint8_t *out = got(malloc(room));
    uint32_t *work = got(malloc(entries * 4 + 4));
    struct desk_answer a = desk_list(in->part[SHEET].at, in->part[SHEET].count, in->part[BYTES].at, in->part[BYTES].count,
                                     (const uint32_t *)(const void *)in->part[ENDS].at, strings, b->at, b->count, one_in(r, 2),
                                     one_in(r, 2), true, out, room, work, entries);
    b->count = 0;
    put(b, out, a.length);
    free(out);
    free(work);
}

/* Lines as a person writes them: labels that are looked up, comments, offsets, both line ends. */
static void write_text(struct input *in, uint64_t *r)
{
    struct bytes *b = &in->part[BODY];
    char word[64];
    for (size_t lines = below(r, 20); lines > 0; lines--) {
        if (one_in(r, 3)) {
            put_text(b, one_in(r, 2) ? "L:" : "L5000000000:");
            put_text(b, one_in(r, 5) ? " // here\r\n" : "\n");
        }
        const struct op *op = &in->one.op[below(r, in->one.count)];
        snprintf(word, sizeof word, "%s%s ", one_in(r, 3) ? "00ff  " : "", op->name);
        put_text(b, word);
        for (unsigned k = 0; k < op->types; k++) {
            unsigned n = (unsigned)below(r, 90);
            switch (types[op->type[k]].family) {
            case 'r':
                snprintf(word, sizeof word, "r%u", n);
                break;
            case 'a':
                snprintf(word, sizeof word, "L%u", n);
                break;
            case 'd':
                snprintf(word, sizeof word, "0x%016X", n);
                break;
            default:
                snprintf(word, sizeof word, "%u", n);
            }
            if (types[op->type[k]].family == 'a' && one_in(r, 4))
                word[1] = 0; /* L alone, which is looked up */
            if (types[op->type[k]].family == 's' && one_in(r, 20))
                snprintf(word, sizeof word, "\"a\"");
            put_text(b, k == 0 ? "" : ", ");
            put_text(b, word);
        }
        put_text(b, one_in(r, 9) ? " // c\r\n" : "\n");
    }
}

size_t element(const struct input *in, enum part p)
{
    if (p == ENDS || p == ENDS2 || p == FUNCTIONS)
        return 4;
    return p == BODY && in->what == ENCODE ? 8 : 1;
}

/* Changes, cuts, lengthens or replaces a part. */
static void damage(struct input *in, uint64_t *r)
{
    enum part p = one_in(r, 2) ? BODY : (enum part)below(r, PARTS);
    struct bytes *b = &in->part[p];
    size_t size = element(in, p), at = b->count == 0 ? 0 : below(r, b->count);
    uint8_t junk[64];
    for (size_t i = 0; i < sizeof junk; i++)
        junk[i] = (uint8_t)next(r);
    switch (below(r, 5)) {
    case 0:
        if (b->count > 0)
            b->at[at] ^= (uint8_t)(1u << below(r, 8));
        break;
    case 1:
        b->count = at / size * size;
        break;
    case 2:
        put(b, junk, size);
        break;
    case 3:
        if (b->count > 0)
            b->at[at] = (uint8_t)below(r, 256);
        break;
    default:
        b->count = 0;
        put(b, junk, below(r, sizeof junk / size + 1) * size);
    }
}

void input_empty(struct input *in, enum operation what)
{
    in->what = what;
    for (int p = 0; p < PARTS; p++)
        in->part[p].count = 0;
    in->base = 0;
    in->id = 0;
    in->offsets = in->labels = in->texts = true;
    in->one.count = in->two.count = 0;
}

void input_random(struct input *in, uint64_t seed)
{
    uint64_t state = seed, *r = &state;
    input_empty(in, (enum operation)below(r, OPERATIONS));
    in->offsets = !one_in(r, 4);
    in->labels = !one_in(r, 4);
    in->texts = !one_in(r, 4);
    make_sheet(&in->one, r);
    write_sheet(&in->part[SHEET], &in->one, r);
    make_strings(&in->part[BYTES], &in->part[ENDS], r);
    size_t strings = in->part[ENDS].count / 4;
    if (in->what == CARRY) {
        make_edition(&in->two, &in->one, r);
        write_sheet(&in->part[SHEET2], &in->two, r);
        put(&in->part[BYTES2], in->part[BYTES].at, in->part[BYTES].count);
        put(&in->part[ENDS2], in->part[ENDS].at, in->part[ENDS].count);
        if (one_in(r, 4))
            make_strings(&in->part[BYTES2], &in->part[ENDS2], r);
    }
    bool written = in->what == ASSEMBLE && one_in(r, 2);
    if (in->what == DECODE_FUNCTION || in->what == LIST_FUNCTION || in->what == LIST_MODULE)
        make_area(in, strings, r);
    else if (written)
        write_text(in, r);
    else
        make_body(&in->part[BODY], &in->one, strings, r);
    if (in->what == ENCODE)
        turn_into_records(in);
    if (in->what == ASSEMBLE && !written)
        turn_into_listing(in, strings, r);
    if (one_in(r, 3))
        for (size_t i = 1 + below(r, 3); i > 0; i--)
            damage(in, r);
}

struct input *input_new(void)
{
    return got(calloc(1, sizeof(struct input)));
}

void input_free(struct input *in)
{
    for (int p = 0; p < PARTS; p++)
        free(in->part[p].at);
    free(in);
}
