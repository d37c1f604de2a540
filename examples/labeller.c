/* The labeller's loop in C: reads a machine file, starts, ticks, and completes each job with a word, as firmware would.
 *
 * The machine is machines/labeller.machine: weigh (task 0) every 20 ticks, price and label (1, 2) every 40, belt (3) every 10. The
 * scale weighs twice for each pack, and a label is for the weighing that was dispatched with it. Each job here works for as many
 * ticks as its row allows, so a label is still at work when the scale has weighed again; it prints what stands in its inputs at its
 * very end. That is its own weighing, and the price that was worked out from it, each time. The scale shows no weight twice, so the
 * weight on a label tells which weighing it is from.
 *
 * make -C examples check
 */
#include <stdio.h>
#include <stdlib.h>

#include "otravelun.h"

enum { WEIGH, PRICE, LABEL, BELT };
enum { WEIGHT_TO_PRICE, PRICE_TO_LABEL, WEIGHT_TO_LABEL };

#define TICKS 200
#define WEIGHINGS_A_PACK 2
#define CENTS_A_KILOGRAM 1290

static uint16_t tasks[OTRAVELUN_TASK_WORDS];
static uint16_t connections[OTRAVELUN_CONNECTION_WORDS];
static uint32_t state[OTRAVELUN_STATE_WORDS];

static unsigned weighings, labels, wrong;

static void stop(const char *what, uint64_t answer)
{
    printf("%s refused %u %lu\n", what, OTRAVELUN_NUMBER(answer), OTRAVELUN_VALUE(answer));
    exit(1);
}

/* What a task reads on a connection. */
static uint32_t input(unsigned connection)
{
    return state[OTRAVELUN_STATE_INPUTS + connection];
}

static uint32_t cents(uint32_t grams)
{
    return grams * CENTS_A_KILOGRAM / 1000;
}

/* What the scale shows at each weighing. */
static uint32_t scale(unsigned weighing)
{
    return 480 + 37 * weighing % 101;
}

/* Which of the weighings so far gave a weight. */
static unsigned weighing_of(uint32_t grams)
{
    unsigned weighing = 0;

    while (weighing < weighings && scale(weighing) != grams)
        weighing++;
    return weighing;
}

static uint32_t weigh(unsigned tick)
{
    uint32_t grams = scale(weighings);

    printf("%3u weighing %u: %u g\n", tick, weighings++, (unsigned)grams);
    return grams;
}

static uint32_t label(unsigned tick)
{
    uint32_t grams = input(WEIGHT_TO_LABEL), price = input(PRICE_TO_LABEL);
    unsigned own = WEIGHINGS_A_PACK * labels;

    printf("%3u label %u: %u g (weighing %u), %u cents; the scale shows %u g\n", tick, labels, (unsigned)grams, weighing_of(grams),
           (unsigned)price, (unsigned)scale(weighings - 1));
    labels++;
    wrong += grams != scale(own) || price != cents(scale(own));
    return grams;
}

/* The word that a job ends with. */
static uint32_t result(unsigned task, unsigned tick)
{
    static uint32_t position;

    switch (task) {
    case WEIGH:
        return weigh(tick);
    case PRICE:
        return cents(input(WEIGHT_TO_PRICE));
    case LABEL:
        return label(tick);
    default:
        return ++position;
    }
}

static void start(const char *name)
{
    static uint8_t file[4096];
    FILE *in = fopen(name, "rb");
    size_t bytes = in ? fread(file, 1, sizeof file, in) : 0;
    uint64_t answer;

    if (in)
        fclose(in);
    answer = otravelun_read(file, bytes, tasks, OTRAVELUN_TASK_WORDS, connections, OTRAVELUN_CONNECTION_WORDS);
    if (OTRAVELUN_KIND(answer) != OTRAVELUN_READ)
        stop("file", answer);
    answer = otravelun_fresh(tasks, OTRAVELUN_TASK_WIDTH * OTRAVELUN_NUMBER(answer), connections,
                             OTRAVELUN_CONNECTION_WIDTH * OTRAVELUN_VALUE(answer), state, OTRAVELUN_STATE_WORDS);
    if (OTRAVELUN_KIND(answer) != OTRAVELUN_IDLE)
        stop("machine", answer);
}

int main(int argc, char **argv)
{
    unsigned left[OTRAVELUN_TASKS] = {0};
    unsigned tick;

    if (argc != 2) {
        fprintf(stderr, "usage: %s FILE\n", argv[0]);
        return 2;
    }
    start(argv[1]);
    for (tick = 0; tick < TICKS; tick++) {
        uint64_t answer = otravelun_tick(state, OTRAVELUN_STATE_WORDS);
        unsigned task = (unsigned)OTRAVELUN_VALUE(answer);

        if (OTRAVELUN_KIND(answer) == OTRAVELUN_MISSED) {
            printf("%3u missed: task %u\n", tick, task);
            return 1;
        }
        if (OTRAVELUN_KIND(answer) == OTRAVELUN_REFUSED)
            stop("tick", answer);
        if (OTRAVELUN_KIND(answer) != OTRAVELUN_RUNNING)
            continue;
        /* The running task has this tick. A job begins with as many ticks to go as its row allows. */
        if (left[task] == 0)
            left[task] = tasks[OTRAVELUN_TASK_WIDTH * task + OTRAVELUN_COMPUTE];
        if (--left[task] == 0) {
            answer = otravelun_complete(state, OTRAVELUN_STATE_WORDS, result(task, tick));
            if (OTRAVELUN_KIND(answer) == OTRAVELUN_REFUSED)
                stop("completion", answer);
        }
    }
    printf("%u labels, %u with a weight or a price that is not their own\n", labels, wrong);
    return wrong != 0;
}
