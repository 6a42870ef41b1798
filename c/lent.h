/*
 * Memory that is lent to the library, with guard bytes on both sides, and a copy of it all:
 * after a call it shows whether a byte changed that had to stay.
 */
#ifndef LENT_H
#define LENT_H

#include <stdint.h>
#include <stdio.h>
#include <stdlib.h>
#include <string.h>

/* Guard bytes on each side; what lies between is aligned for an array of any type. */
#define LENT_GUARD 64

struct lent {
    uint8_t *all;
    uint8_t *copy;
    uint8_t *bytes;
    size_t length;
};

static inline void *lent_memory(size_t size)
{
    void *memory = malloc(size);
    if (memory == NULL) {
        fputs("no memory is left\n", stderr);
        exit(2);
    }
    return memory;
}

/* Takes the bytes as they stand for those that have to stay. */
static inline void lent_remember(struct lent *lent)
{
    memcpy(lent->copy, lent->all, lent->length + 2 * LENT_GUARD);
}

/* `length` bytes to be lent, filled like the guards by a pattern. */
static inline struct lent lend(size_t length)
{
    struct lent lent;
    size_t size = length + 2 * LENT_GUARD;
    size_t i;
    lent.all = (uint8_t *)lent_memory(size);
    lent.copy = (uint8_t *)lent_memory(size);
    lent.bytes = lent.all + LENT_GUARD;
    lent.length = length;
    for (i = 0; i < size; i++)
        lent.all[i] = (uint8_t)(0xa5 + 31 * i);
    lent_remember(&lent);
    return lent;
}

/* These bytes, to be lent. */
static inline struct lent lend_bytes(const uint8_t *bytes, size_t length)
{
    struct lent lent = lend(length);
    if (length != 0)
        memcpy(lent.bytes, bytes, length);
    lent_remember(&lent);
    return lent;
}

/* Are the guards as they were, and all bytes that are lent but the first `written`? */
static inline int lent_kept(const struct lent *lent, size_t written)
{
    size_t from = LENT_GUARD + written;
    return written <= lent->length && memcmp(lent->all, lent->copy, LENT_GUARD) == 0
           && memcmp(lent->all + from, lent->copy + from,
                     lent->length + 2 * LENT_GUARD - from) == 0;
}

static inline void give_back(struct lent *lent)
{
    free(lent->all);
    free(lent->copy);
}

#endif
