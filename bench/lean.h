/* A lean plain kernel, the yardstick of the benchmarks: the same rules, steps and answers, changed in place, nothing tested and
 * nothing proved. */
#ifndef LEAN_H
#define LEAN_H

#include "cungkalisa.h"

#include <stddef.h>

#define LEAN_LEVELS (CUNGKALISA_LEAST_URGENT + 1)

/* A place in a ring. A list's own link stands in its ring too, so that no place is the first or the last; a place that is in
 * no list is a ring of its own. */
struct lean_link {
    struct lean_link *next;
    struct lean_link *before;
};

struct lean_task {
    struct lean_link place;    /* among the ready ones of its level, or among those who wait for the same thing */
    struct lean_link timed;    /* among the timed waits */
    struct lean_link owned;    /* what it owns and inherits by */
    struct lean_owned *behind; /* the mutex, or the room in a queue, that it waits for, if it does */
    uint32_t due;              /* the clock at which its timed wait ends */
    uint32_t words[CUNGKALISA_WORDS];
    uint8_t id;
    uint8_t priority; /* its own, as it was made */
    uint8_t level;    /* how urgent it is now */
    uint8_t outcome;
    uint8_t late; /* its outcome if its time runs out */
};

/* A mutex, or the room in a queue: what may have an owner, and others wait for. */
struct lean_owned {
    struct lean_link waiters; /* the oldest wait first */
    struct lean_link held;    /* among what its owner owns, if it is inheriting */
    struct lean_task *owner;
    uint8_t inheriting; /* room in a queue is, exactly if it has an owner */
};

struct lean_semaphore {
    struct lean_link waiters; /* the oldest wait first */
    uint32_t count;
    uint32_t maximum;
};

struct lean_queue {
    struct lean_owned room;     /* for which senders wait */
    struct lean_link receivers; /* the oldest wait first */
    uint32_t start;             /* its first word in the block */
    uint8_t width;
    uint8_t depth;
    uint8_t oldest; /* the place of the oldest message in its ring */
    uint8_t used;
};

struct lean {
    struct lean_link ready[LEAN_LEVELS];
    uint32_t marks; /* bit l: the ready list of level l isn't empty */
    uint32_t clock;
    struct lean_link timed; /* the wait that ends next first, and of those that end together the oldest */
    struct lean_task *running;
    uint8_t started;
    uint8_t hold;
    uint8_t tasks_made;
    uint8_t mutexes_made;
    uint8_t semaphores_made;
    uint8_t queues_made;
    uint32_t block_used; /* words of the block that queues have */
    struct lean_task tasks[CUNGKALISA_TASKS];
    struct lean_owned mutexes[CUNGKALISA_MUTEXES];
    struct lean_semaphore semaphores[CUNGKALISA_SEMAPHORES];
    struct lean_queue queues[CUNGKALISA_QUEUES];
};

/* How many bytes a caller that isn't C must lend. */
extern const size_t lean_size;

void lean_fresh(struct lean *k);

/* The step of a code, CUNGKALISA_STEP_TASK .., with numbers, message and block as the proved library's takes them, and its
 * answer, with number, task to run and value in the same bits. */
uint64_t lean_step(struct lean *k, uint32_t code, uint32_t a, uint32_t b, uint32_t c, const uint32_t *message, uint64_t count,
                   uint32_t *block, uint64_t block_words);

#endif
