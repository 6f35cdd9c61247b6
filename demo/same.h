/* Comparing what the library gave with what is wanted. */
#ifndef SAME_H
#define SAME_H

#include "nfs3.h"

#include <stdio.h>

static int differences;

/* An answer to a call that broke at an offset. */
static inline void same_answer_at(const char *what, struct nfs3_answer a, uint32_t number, size_t length, uint32_t offset) {
    if (a.number != number || a.length != length || a.offset != offset) {
        printf("%s: answer %u, length %u, offset %u, not %u, %u, %u\n", what, (unsigned)a.number, (unsigned)a.length, (unsigned)a.offset,
               (unsigned)number, (unsigned)length, (unsigned)offset);
        differences++;
    }
}

/* An answer where nothing broke: with the offset 0. */
static inline void same_answer(const char *what, struct nfs3_answer a, uint32_t number, size_t length) {
    same_answer_at(what, a, number, length, 0);
}

static inline void same_bytes(const char *what, const uint8_t *got, const uint8_t *wanted, size_t len) {
    for (size_t i = 0; i < len; i++) {
        if (got[i] != wanted[i]) {
            printf("%s: byte %u is %u, not %u\n", what, (unsigned)i, got[i], wanted[i]);
            differences++;
            return;
        }
    }
}

/* Prints the last line of a program that took so many steps, and gives the status to exit with. */
static inline int end(const char *program, int steps) {
    printf("%s: %d steps, %d differences\n", program, steps, differences);
    return differences != 0;
}

#endif
