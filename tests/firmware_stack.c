/* How much stack a step takes: made on a painted one (bench/stack.c), in chains through all mutexes and all queues, and at
 * random. */
#include "../bench/stack.h"
#include "cungkalisa.h"

#include <stdio.h>

/* What docs/BENCHMARKS.md promises of a step in place. */
enum { MOST = 3730, TASKS = 16, MUTEXES = 8, QUEUES = 8, CODES = 21, STEPS = 20000 };

/* Each queue has one message of eight words. */
enum { BLOCK = QUEUES * CUNGKALISA_WORDS };

static cungkalisa record;
static uint32_t block[BLOCK];
static const uint32_t message[CUNGKALISA_WORDS] = {1, 2, 3, 4, 5, 6, 7, 8};
static size_t deepest[CODES];

static uint64_t in_place(void *state, uint32_t code, uint32_t a, uint32_t b, uint32_t c, const uint32_t *words, uint64_t count,
                         uint32_t *lent, uint64_t lent_words)
{
    return cungkalisa_step(state, code, a, b, c, words, count, lent, lent_words);
}

static struct stack_call call_of(step_function *function, uint32_t code, uint32_t a, uint32_t b, uint32_t c)
{
    struct stack_call made = {function, &record, code, a, b, c, message, CUNGKALISA_WORDS, block, BLOCK};
    return made;
}

/* The step on two painted stacks, the record being the same for both; the deeper of them counts. (What stands in the block
 * changes no step.) */
static void step(uint32_t code, uint32_t a, uint32_t b, uint32_t c)
{
    static const uint8_t patterns[2] = {0xa5, 0x5a};
    struct stack_call made = call_of(in_place, code, a, b, c);
    cungkalisa before = record;
    for (int i = 0; i < 2; i++) {
        record = before;
        size_t bytes = stack_of_step(&made, patterns[i]);
        if (deepest[code] < bytes)
            deepest[code] = bytes;
    }
}

/* Task i owns queue i, but the last queue has no owner. */
static void set_up(void)
{
    cungkalisa_fresh(&record);
    for (uint32_t i = 0; i < TASKS; i++)
        step(CUNGKALISA_STEP_TASK, i, 0, 0);
    for (uint32_t i = 0; i < MUTEXES; i++)
        step(CUNGKALISA_STEP_MUTEX, 1, 0, 0);
    for (uint32_t i = 0; i < QUEUES - 1; i++)
        step(CUNGKALISA_STEP_QUEUE_OWNED, CUNGKALISA_WORDS, 1, i);
    step(CUNGKALISA_STEP_QUEUE, CUNGKALISA_WORDS, 1, 0);
    step(CUNGKALISA_STEP_SEM, 0, 1, 0);
    step(CUNGKALISA_STEP_START, 0, 0, 0);
}

/* Each task takes a mutex and waits for the one before it; the first sleeps, and unlocks when it wakes. */
static void lock_chain(void)
{
    set_up();
    step(CUNGKALISA_STEP_LOCK, 0, CUNGKALISA_FOREVER, 0);
    step(CUNGKALISA_STEP_SLEEP, 1, 0, 0);
    for (uint32_t i = 1; i < MUTEXES; i++) {
        step(CUNGKALISA_STEP_LOCK, i, CUNGKALISA_FOREVER, 0);
        step(CUNGKALISA_STEP_LOCK, i - 1, CUNGKALISA_FOREVER, 0);
    }
    step(CUNGKALISA_STEP_TICK, 0, 0, 0);
    for (uint32_t i = 0; i < MUTEXES; i++)
        step(CUNGKALISA_STEP_UNLOCK, i, 0, 0);
}

/* Each task sends to its own queue, and then to the one of the task before it, which is full; the first sleeps, and receives when
 * it wakes, so that the next one's message is taken in, and so on. */
static void send_chain(void)
{
    set_up();
    step(CUNGKALISA_STEP_SEND, 0, CUNGKALISA_FOREVER, 0);
    step(CUNGKALISA_STEP_SLEEP, 1, 0, 0);
    for (uint32_t i = 1; i < QUEUES - 1; i++) {
        step(CUNGKALISA_STEP_SEND, i, CUNGKALISA_FOREVER, 0);
        step(CUNGKALISA_STEP_SEND, i - 1, CUNGKALISA_FOREVER, 0);
    }
    step(CUNGKALISA_STEP_TICK, 0, 0, 0);
    for (uint32_t i = 0; i < QUEUES - 1; i++) {
        step(CUNGKALISA_STEP_RECEIVE, i, CUNGKALISA_FOREVER, 0);
        step(CUNGKALISA_STEP_SLEEP, 9, 0, 0);
    }
}

static uint32_t random_below(uint32_t n)
{
    static uint64_t seed = 20261116;
    seed = seed * 6364136223846793005u + 1442695040888963407u;
    return (uint32_t)(seed >> 33) % n;
}

/* Waits on queues are short ones: only tasks end them, and somebody should run most of the time. */
static void random_step(uint32_t code)
{
    uint32_t few = 1 + random_below(5), number = random_below(MUTEXES);
    switch (code) {
    case CUNGKALISA_STEP_SLEEP: step(code, few, 0, 0); break;
    case CUNGKALISA_STEP_SEND:
    case CUNGKALISA_STEP_RECEIVE:
    case CUNGKALISA_STEP_WORD: step(code, number, few, 0); break;
    default: step(code, number, random_below(2) ? CUNGKALISA_FOREVER : few, 0);
    }
}

int main(void)
{
    lock_chain();
    send_chain();
    set_up();
    for (int i = 0; i < STEPS; i++)
        random_step(CUNGKALISA_STEP_LOCK + random_below(CODES - CUNGKALISA_STEP_LOCK));

    struct stack_call no_step = call_of(stack_no_step, 0, 0, 0, 0);
    size_t nothing = stack_of_step(&no_step, 0xa5), most = 0;
    for (int code = 0; code < CODES; code++) {
        if (deepest[code] <= nothing) {
            printf("stack: step %d was not made, or its stack not seen\n", code);
            return 1;
        }
        if (most < deepest[code])
            most = deepest[code];
    }
    printf("stack: a step takes at most %zu bytes, and %d are promised\n", most, MOST);
    return most <= MOST ? 0 : 1;
}
