// The executive in plain C, as one would write it without proofs: rows of structs, changed in place, every check that document 01
// asks for. What it does with standard input stands in drive.h.
#include "executive.h"
#include "tables.h"

typedef enum { TASK_IDLE, TASK_WAITING, TASK_STARTED } Phase;

typedef struct {
    uint16_t period, deadline, compute, criticality, flag;
    Phase phase;
    uint32_t output, dispatch;
} Task;

typedef struct {
    uint16_t sender, receiver, kind;
    uint32_t buffer, input;
} Row;

typedef struct {
    size_t count, rows;
    Task task[32];
    Row row[64];
    uint8_t order[32];
    uint32_t multiple, cycle;
    bool ticked, halted;
} State;

static bool fresh(State *s, const uint16_t *tasks, size_t task_words, const uint16_t *rows, size_t row_words) {
    Plan p = plan(tasks, task_words, rows, row_words);
    memset(s, 0, sizeof *s);
    s->halted = p.refusal != 0;
    if (s->halted) return false;
    s->count = task_words / 5, s->rows = row_words / 3, s->multiple = p.multiple;
    memcpy(s->order, p.order, sizeof s->order);
    for (size_t i = 0; i < s->count; i++) {
        const uint16_t *t = tasks + 5 * i;
        s->task[i] = (Task){t[0], t[1], t[2], t[3], t[4], TASK_IDLE, 0, 0};
    }
    for (size_t c = 0; c < s->rows; c++) {
        const uint16_t *r = rows + 3 * c;
        s->row[c] = (Row){r[0], r[1], r[2], 0, 0};
    }
    return true;
}

static bool in_range(const State *s) {
    if (s->count < 1 || s->count > 32 || s->rows > 64 || s->multiple < 1 || s->multiple > MOST_MULTIPLE || s->cycle >= s->multiple)
        return false;
    for (size_t i = 0; i < s->count; i++) {
        const Task *t = &s->task[i];
        if (t->period < 1 || t->period > 10000 || t->deadline < 1 || t->deadline > t->period || t->compute < 1 ||
            t->compute > t->deadline || t->criticality > 255 || t->flag > 1 || t->dispatch >= s->multiple)
            return false;
    }
    for (size_t c = 0; c < s->rows; c++)
        if (s->row[c].sender >= s->count || s->row[c].receiver >= s->count || s->row[c].kind > 1) return false;
    bool seen[32] = {false};
    for (size_t k = 0; k < s->count; k++) {
        uint8_t i = s->order[k];
        if (i >= s->count || seen[i]) return false;
        seen[i] = true;
    }
    return true;
}

static size_t running_place(const State *s) {
    for (size_t k = 0; k < s->count; k++)
        if (s->task[s->order[k]].phase != TASK_IDLE) return k;
    return s->count;
}

static Answer choose(State *s) {
    size_t k = running_place(s);
    if (k == s->count) return (Answer){IDLE, 0, 0};
    size_t i = s->order[k];
    if (s->task[i].phase == TASK_WAITING) {
        s->task[i].phase = TASK_STARTED;
        for (size_t c = 0; c < s->rows; c++)
            if (s->row[c].kind == 1 && s->row[c].receiver == i) s->row[c].input = s->row[c].buffer;
    }
    return running(i);
}

static bool falls(const State *s, const Task *t) { return s->ticked && s->cycle % t->period == (uint32_t)(t->deadline % t->period); }

static Answer tick(State *s) {
    if (!in_range(s)) return refused(16);
    if (s->halted) return refused(15);
    for (size_t i = 0; i < s->count; i++)
        if (falls(s, &s->task[i]) && s->task[i].phase != TASK_IDLE) {
            s->halted = true;
            return (Answer){MISSED, i, 0};
        }
    for (size_t c = 0; c < s->rows; c++) {
        Row *r = &s->row[c];
        if (r->kind == 0 && falls(s, &s->task[r->sender])) r->buffer = s->task[r->sender].output;
    }
    for (size_t c = 0; c < s->rows; c++) {
        Row *r = &s->row[c];
        if (r->kind == 0 && s->cycle % s->task[r->receiver].period == 0) r->input = r->buffer;
    }
    for (size_t i = 0; i < s->count; i++)
        if (s->cycle % s->task[i].period == 0) s->task[i].phase = TASK_WAITING, s->task[i].dispatch = s->cycle;
    Answer a = choose(s);
    s->cycle = s->cycle + 1 == s->multiple ? 0 : s->cycle + 1;
    s->ticked = true;
    return a;
}

static Answer complete(State *s, uint32_t word) {
    if (!in_range(s)) return refused(16);
    if (s->halted) return refused(15);
    size_t k = running_place(s);
    if (k == s->count) return refused(14);
    size_t i = s->order[k];
    s->task[i].output = word, s->task[i].phase = TASK_IDLE;
    for (size_t c = 0; c < s->rows; c++) {
        Row *r = &s->row[c];
        if (r->kind == 1 && r->sender == i && s->task[r->receiver].dispatch == s->task[i].dispatch) r->buffer = word;
    }
    return choose(s);
}

static uint32_t input_of(const State *s, size_t c) { return s->row[c].input; }

#include "drive.h"

int main(void) { return drive(); }
