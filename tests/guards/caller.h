/* A caller of the desk: lends buffers that end or begin exactly at a page that must not be touched, and checks what
 * document 01 says of each answer and of all lent space. */
#ifndef CALLER_H
#define CALLER_H

#include "desk.h"
#include "input.h"
#include "space.h"

struct caller {
    struct space part[PARTS], out, work;
    const void *lent[PARTS];
    struct input *in;
    const char *about;
    uint64_t seed, calls, sum; /* sum: over all answers and results, by which runs are compared */
    uint64_t numbers[OPERATIONS][DESK_REFUSALS + 1];
    uint8_t *result; /* of the call with room enough */
};

void caller_make(struct caller *c);
void caller_drop(struct caller *c);

/* Says what is wrong and ends the program. */
void fail(const struct caller *c, const char *what, struct desk_answer a, size_t out_count, size_t work_count);

/* Bytes of an element of out, and of a label entry; 0 where none is lent. */
size_t out_element(enum operation what);
size_t work_element(enum operation what);

/* Puts the input's parts where they are lent from. */
void lend_inputs(struct caller *c, enum layout layout);

/* The call itself. more[..] are elements by which a count is too large; the last two are those of out and the entries. */
struct desk_answer call(const struct caller *c, void *out, size_t out_count, void *work, size_t work_count,
                        const size_t more[PARTS + 2]);

/* Tries the input with room enough, exactly what is needed, one less, and a random amount, in both layouts. */
struct needs {
    struct desk_answer answer;
    size_t out, work;
};
struct needs try_input(struct caller *c, uint64_t *r);

/* Inputs made from so many seeds. */
void random_inputs(struct caller *c, uint64_t seed, uint64_t count);

#endif
