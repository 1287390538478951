#define _GNU_SOURCE
#include "space.h"
#include <stdio.h>
#include <stdlib.h>
#include <string.h>
#include <sys/mman.h>
#include <unistd.h>

static void *mapped(void *at)
{
    if (at == MAP_FAILED) {
        perror("mmap");
        exit(2);
    }
    return at;
}

void space_make(struct space *s, size_t most, bool input)
{
    size_t page = (size_t)sysconf(_SC_PAGESIZE);
    size_t size = (most + 64 + page - 1) / page * page;
    uint8_t *all = mapped(mmap(NULL, size + 2 * page, PROT_NONE, MAP_PRIVATE | MAP_ANONYMOUS, -1, 0));
    s->front = all + page;
    s->back = s->front + size;
    if (!input) {
        s->write = mapped(mmap(s->front, size, PROT_READ | PROT_WRITE, MAP_PRIVATE | MAP_ANONYMOUS | MAP_FIXED, -1, 0));
        return;
    }
    /* The same memory twice: what is lent cannot be written, and the harness writes through the other mapping. */
    int file = memfd_create("input", 0);
    if (file < 0 || ftruncate(file, (off_t)size) != 0) {
        perror("memfd_create");
        exit(2);
    }
    mapped(mmap(s->front, size, PROT_READ, MAP_SHARED | MAP_FIXED, file, 0));
    s->write = mapped(mmap(NULL, size, PROT_READ | PROT_WRITE, MAP_SHARED, file, 0));
    close(file);
}

void space_drop(struct space *s)
{
    size_t page = (size_t)sysconf(_SC_PAGESIZE);
    if (s->write != s->front)
        munmap(s->write, (size_t)(s->back - s->front));
    munmap(s->front - page, (size_t)(s->back - s->front) + 2 * page);
}

uint8_t *space_at(const struct space *s, size_t bytes, enum layout layout)
{
    if (bytes > (size_t)(s->back - s->front) - 64) {
        fprintf(stderr, "a space of %zu bytes is too small for %zu\n", (size_t)(s->back - s->front), bytes);
        exit(2);
    }
    return layout == BEFORE ? s->back - bytes : s->front;
}

const void *space_put(const struct space *s, const void *from, size_t bytes, enum layout layout)
{
    uint8_t *at = space_at(s, bytes, layout);
    if (bytes > 0)
        memcpy(s->write + (at - s->front), from, bytes);
    return at;
}
