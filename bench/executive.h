// The steps of the executive that both C programs of the bench share in name: the answer, and the calls that are timed.
#ifndef EXECUTIVE_H
#define EXECUTIVE_H

#include <stddef.h>
#include <stdint.h>

typedef enum { RUNNING, IDLE, MISSED, REFUSED } Kind;

typedef struct {
    Kind kind;
    size_t number;
    size_t place;
} Answer;

static inline Answer running(size_t task) { return (Answer){RUNNING, task, 0}; }
static inline Answer refused(size_t number) { return (Answer){REFUSED, number, 0}; }

#endif
