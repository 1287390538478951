/* Room for a buffer between two pages that must not be touched. */
#ifndef SPACE_H
#define SPACE_H

#include <stdbool.h>
#include <stddef.h>
#include <stdint.h>

struct space {
    uint8_t *front; /* behind the lower guard page */
    uint8_t *back;  /* the upper guard page */
    uint8_t *write; /* the memory of front, writable */
};

enum layout { BEFORE, BEHIND, LAYOUTS }; /* the buffer ends at the upper guard page, or begins behind the lower one */

/* Room for at most so many bytes. Input space is lent read-only, so that a write to it faults too. */
void space_make(struct space *s, size_t most, bool input);
void space_drop(struct space *s);

/* Where a buffer of so many bytes lies. */
uint8_t *space_at(const struct space *s, size_t bytes, enum layout layout);

/* Puts an input there and gives its address; the address may not be written to. */
const void *space_put(const struct space *s, const void *from, size_t bytes, enum layout layout);

#endif
