/* An input of one of the desk's functions, made from a seed: sheets, strings, bodies, areas, records and texts, whole or
 * damaged. */
#ifndef INPUT_H
#define INPUT_H

#include <stdbool.h>
#include <stddef.h>
#include <stdint.h>

enum operation { DECODE, DECODE_FUNCTION, ENCODE, LIST, LIST_FUNCTION, LIST_MODULE, ASSEMBLE, CARRY, OPERATIONS };

/* BODY is the body, the area, the records' words or the text, whatever the operation reads. */
enum part { SHEET, BYTES, ENDS, SHEET2, BYTES2, ENDS2, FUNCTIONS, BODY, PARTS };

struct bytes {
    uint8_t *at;
    size_t count, room;
};

struct op {
    unsigned code, types;
    char name[49];
    bool jump;
    unsigned char type[8];
};

struct sheet {
    size_t count;
    struct op op[256];
};

struct input {
    enum operation what;
    struct bytes part[PARTS];
    uint32_t base;
    size_t id;
    bool offsets, labels, texts;
    struct sheet one, two;
};

struct input *input_new(void);
void input_free(struct input *in);
void input_random(struct input *in, uint64_t seed);

/* For inputs written by hand. */
void input_empty(struct input *in, enum operation what);
void put(struct bytes *b, const void *from, size_t count);
void put_text(struct bytes *b, const char *text);
void put_u32(struct bytes *b, uint32_t word);

/* Bytes of one element of a part. */
size_t element(const struct input *in, enum part p);

uint64_t next(uint64_t *seed);
size_t below(uint64_t *seed, size_t n);

#endif
