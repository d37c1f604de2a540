// The executive in the fastest C we know how to write over the proved executive's own columns: in place, branch-free tests that
// the compiler turns into vector code, one remainder per task and tick, rows walked only where something is due or released.
#include "executive.h"
#include "tables.h"

typedef enum { TASK_IDLE, TASK_WAITING, TASK_STARTED } Phase;

typedef struct {
    size_t count, rows;
    uint16_t periods[32], deadlines[32], computes[32];
    uint8_t criticalities[32];
    bool enforced[32];
    uint8_t senders[64], receivers[64];
    bool undelayed[64];
    uint8_t order[32];
    uint32_t multiple;
    uint8_t phases[32];
    uint32_t outputs[32], dispatches[32], buffers[64], inputs[64];
    uint32_t cycle;
    bool ticked, halted;
} State;

static bool fresh(State *s, const uint16_t *tasks, size_t task_words, const uint16_t *rows, size_t row_words) {
    Plan p = plan(tasks, task_words, rows, row_words);
    memset(s, 0, sizeof *s);
    s->halted = p.refusal != 0;
    if (s->halted) return false;
    s->count = task_words / 5, s->rows = row_words / 3, s->multiple = p.multiple;
    memcpy(s->order, p.order, sizeof s->order);
    for (size_t i = 0; i < s->count; i++) {
        const uint16_t *t = tasks + 5 * i;
        s->periods[i] = t[0], s->deadlines[i] = t[1], s->computes[i] = t[2];
        s->criticalities[i] = (uint8_t)t[3], s->enforced[i] = t[4] == 1;
    }
    for (size_t c = 0; c < s->rows; c++) {
        const uint16_t *r = rows + 3 * c;
        s->senders[c] = (uint8_t)r[0], s->receivers[c] = (uint8_t)r[1], s->undelayed[c] = r[2] == 1;
    }
    return true;
}

static bool in_range(const State *s) {
    size_t n = s->count, m = s->rows;
    if (n < 1 || n > 32 || m > 64 || s->multiple < 1 || s->multiple > 720720 || s->cycle >= s->multiple) return false;
    bool ok = true;
    for (size_t i = 0; i < n; i++) {
        uint16_t p = s->periods[i], d = s->deadlines[i], c = s->computes[i];
        ok &= (1 <= c) & (c <= d) & (d <= p) & (p <= 10000);
    }
    for (size_t i = 0; i < n; i++) ok &= s->dispatches[i] < s->multiple;
    uint8_t top = (uint8_t)n;
    for (size_t c = 0; c < m; c++) ok &= (s->senders[c] < top) & (s->receivers[c] < top);
    uint32_t seen = 0;
    for (size_t k = 0; k < n; k++) {
        ok &= s->order[k] < top;
        seen |= 1u << (s->order[k] & 31);
    }
    return ok & (seen == (n == 32 ? ~0u : (1u << n) - 1));
}

static size_t running_place(const State *s) {
    size_t k = 0;
    while (k < s->count && s->phases[s->order[k]] == TASK_IDLE) k++;
    return k;
}

static Answer choose(State *s) {
    size_t k = running_place(s);
    if (k == s->count) return (Answer){IDLE, 0, 0};
    uint8_t i = s->order[k];
    if (s->phases[i] == TASK_WAITING) {
        s->phases[i] = TASK_STARTED;
        for (size_t c = 0; c < s->rows; c++)
            if (s->undelayed[c] & (s->receivers[c] == i)) s->inputs[c] = s->buffers[c];
    }
    return running(i);
}

static Answer tick(State *s) {
    if (!in_range(s)) return refused(16);
    if (s->halted) return refused(15);
    uint32_t t = s->cycle;
    bool due[32], released[32], any_due = false, any_released = false;
    for (size_t i = 0; i < s->count; i++) {
        uint32_t p = s->periods[i], d = s->deadlines[i], r = t % p;
        due[i] = s->ticked & ((r == d) | ((r == 0) & (d == p)));
        released[i] = r == 0;
        any_due |= due[i], any_released |= released[i];
    }
    if (any_due)
        for (size_t i = 0; i < s->count; i++)
            if (due[i] & (s->phases[i] != TASK_IDLE)) {
                s->halted = true;
                return (Answer){MISSED, i, 0};
            }
    if (any_due | any_released) {
        for (size_t c = 0; c < s->rows; c++) {
            if (s->undelayed[c]) continue;
            if (due[s->senders[c]]) s->buffers[c] = s->outputs[s->senders[c]];
            if (released[s->receivers[c]]) s->inputs[c] = s->buffers[c];
        }
        for (size_t i = 0; i < s->count; i++)
            if (released[i]) s->phases[i] = TASK_WAITING, s->dispatches[i] = t;
    }
    Answer a = choose(s);
    s->cycle = t + 1 == s->multiple ? 0 : t + 1;
    s->ticked = true;
    return a;
}

static Answer complete(State *s, uint32_t word) {
    if (!in_range(s)) return refused(16);
    if (s->halted) return refused(15);
    size_t k = running_place(s);
    if (k == s->count) return refused(14);
    uint8_t i = s->order[k];
    s->outputs[i] = word, s->phases[i] = TASK_IDLE;
    for (size_t c = 0; c < s->rows; c++)
        if (s->undelayed[c] & (s->senders[c] == i))
            if (s->dispatches[s->receivers[c]] == s->dispatches[i]) s->buffers[c] = word;
    return choose(s);
}

static uint32_t input_of(const State *s, size_t c) { return s->inputs[c]; }

#include "drive.h"

int main(void) { return drive(); }
