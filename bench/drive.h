// What a program of the bench does. Standard input has a letter, a digit and a machine file: t for ticks of the machine, p for
// plans of its tables, r for reads of its file, ten to the power of the digit times. It prints one number, the sum of what the
// calls answered, so that no work can be left out unseen and all programs can be compared. It is included behind the definitions
// of State, fresh, tick, complete and input_of.
#ifndef DRIVE_H
#define DRIVE_H

#include <stdio.h>

static uint32_t mixed(uint32_t sum, uint32_t x) { return sum % 1000003 * 31 + x % 1000; }

static uint32_t code_of(Answer a) {
    switch (a.kind) {
    case RUNNING: return 100 + (uint32_t)a.number;
    case IDLE: return 200;
    case MISSED: return 300 + (uint32_t)a.number;
    default: return 400 + (uint32_t)a.number;
    }
}

// A tick, and then up to two completions: jobs end in the tick that they run in, or in the next one.
static uint32_t run_ticks(State *s, uint32_t times) {
    uint32_t sum = 0;
    for (uint32_t i = 0; i < times; i++) {
        Answer a = tick(s);
        sum = mixed(sum, code_of(a));
        for (int left = 2; left > 0 && a.kind == RUNNING; left--) {
            a = complete(s, sum);
            sum = mixed(sum, code_of(a));
        }
    }
    for (size_t c = 0; c < 64; c++) sum = mixed(sum, input_of(s, c));
    return sum;
}

// The first task's criticality changes with the sum, so that no plan can be moved out of the loop.
static uint32_t run_plans(uint16_t *tasks, size_t task_words, const uint16_t *rows, size_t row_words, uint32_t times) {
    uint32_t sum = 0;
    for (uint32_t i = 0; i < times; i++) {
        tasks[3] = (uint16_t)(sum % 2);
        Plan p = plan(tasks, task_words, rows, row_words);
        sum = mixed(sum, p.multiple + p.deadline[0] + p.criticality[1] + p.order[31]);
    }
    return sum;
}

static uint32_t run_reads(uint8_t *file, size_t length, uint32_t times) {
    uint16_t tasks[160] = {0}, rows[192] = {0};
    uint32_t sum = 0;
    for (uint32_t i = 0; i < times; i++) {
        file[8] = (uint8_t)(sum % 2);
        Reading r = read_file(file, length, tasks, 160, rows, 192);
        sum = mixed(sum, (uint32_t)(r.tasks + r.rows) + tasks[3] + rows[190]);
    }
    return sum;
}

static uint32_t run(uint8_t what, uint32_t times, uint8_t *file, size_t length) {
    static State s;
    uint16_t tasks[160] = {0}, rows[192] = {0};
    Reading r = read_file(file, length, tasks, 160, rows, 192);
    if (r.refusal != 0 || r.tasks == 0) return 0;
    if (what == 'p') return run_plans(tasks, 5 * r.tasks, rows, 3 * r.rows, times);
    if (what == 'r') return run_reads(file, length, times);
    if (what != 't' || !fresh(&s, tasks, 5 * r.tasks, rows, 3 * r.rows)) return 0;
    return run_ticks(&s, times);
}

static int drive(void) {
    uint8_t input[1024];
    size_t length = fread(input, 1, sizeof input, stdin);
    if (length < 2) return 1;
    uint32_t times = 1;
    for (int k = '0'; k < input[1] && k < '7'; k++) times *= 10;
    printf("%u\n", run(input[0], times, input + 2, length - 2));
    return 0;
}

#endif
