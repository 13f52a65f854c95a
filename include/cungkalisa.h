/* The Cungkalisa scheduler kernel for C and C++: one state record, and steps that change it where it lies or hand on a new one.
 *
 * The firmware keeps one record, makes it fresh once, and then makes a step for each thing that happens: a task
 * calls the kernel, a tick comes, an interrupt posts. Each step gives back an answer, one number in which three
 * parts stand side by side: the answer's number, a value, and the task that is to run from now on.
 *
 *     static cungkalisa record;
 *     static uint32_t block[64];
 *     static const cungkalisa_kernel kernel = {&record, block, 64};
 *
 *     cungkalisa_fresh(&record);
 *     cungkalisa_task(&kernel, 5);
 *     cungkalisa_start(&kernel);
 *     uint64_t answer = cungkalisa_tick(&kernel);
 *     switch_to(cungkalisa_run(answer));
 *
 * The messages in queues stand in a block of words that the firmware lends to each step. Every step gets the same
 * block, as the last step left it, so that a kernel is named once with its block, as above, and the steps by name take it
 * so. A kernel without queues needs no word: its block is any address but NULL, with 0 words.
 *
 * The record may have any bytes: a step tests it first, and answers CUNGKALISA_UNSOUND where it isn't sound. The
 * library has no state of its own, takes no memory, and calls nothing but the C library's memcpy, memset and the
 * like. Calls on one record must not overlap: an interrupt that makes a step waits until the step under way is done.
 * Record, block and message must be three places in memory, no word of one being in another.
 *
 * Link with libfirmware.a. The behaviour of the functions that it has, declared below, is proved; docs/STATEMENTS.md says where each
 * statement stands. The inline functions are C around them, one call each, and are tested.
 */
#ifndef CUNGKALISA_H
#define CUNGKALISA_H

#include <stdbool.h>
#include <stdint.h>

#ifdef __cplusplus
extern "C" {
#endif

/* How many there can be of each. */
#define CUNGKALISA_TASKS 16
#define CUNGKALISA_MUTEXES 8
#define CUNGKALISA_SEMAPHORES 8
#define CUNGKALISA_QUEUES 8

/* A message has 1, 2, 4 or 8 words, and a task holds as many as the longest; a queue has room for 1 to so many messages. */
#define CUNGKALISA_WORDS 8
#define CUNGKALISA_MOST_MESSAGES 64

/* Priorities and levels go from 0, the most urgent, to this, the least urgent. */
#define CUNGKALISA_LEAST_URGENT 31

/* No task: as the task to run, as an owner, in an unused place of a task list. */
#define CUNGKALISA_NONE 255

/* A waiting time is 0 (don't wait), 1 to CUNGKALISA_MAX_TICKS ticks, or CUNGKALISA_FOREVER. */
#define CUNGKALISA_MAX_TICKS 2147483647u
#define CUNGKALISA_FOREVER 4294967295u

/* ---- The record: a state of 332 bytes, and behind it the words that tasks hold, 844 bytes in all, aligned as a uint32_t
 * is. Read it freely; change it by steps only. The seven bytes of the state that no field has mean nothing, and an accepted
 * step may leave anything there. ---- */

/* Tasks in an order: the first n places of ids, the others being CUNGKALISA_NONE. */
typedef struct cungkalisa_task_list {
    uint8_t ids[CUNGKALISA_TASKS];
    uint8_t n;
} cungkalisa_task_list;

/* What a task waits for. */
enum {
    CUNGKALISA_NO_WAIT = 0,
    CUNGKALISA_ON_MUTEX = 1,
    CUNGKALISA_ON_SEMAPHORE = 2,
    CUNGKALISA_ON_TIME = 3,
    CUNGKALISA_TO_SEND = 4,   /* for room in a queue */
    CUNGKALISA_TO_RECEIVE = 5 /* for a message of a queue */
};

/* How a task's last wait ended. */
enum {
    CUNGKALISA_GRANTED = 0,    /* it got what it waited for, or slept its time, or never waited */
    CUNGKALISA_PENDING = 1,    /* it still waits */
    CUNGKALISA_TIMED_OUT = 20, /* its time ran out first */
    CUNGKALISA_FLUSHED = 21    /* the semaphore was flushed */
};

/* The tasks, by id: place i of each table is task i's. */
typedef struct cungkalisa_tasks {
    uint32_t due[CUNGKALISA_TASKS];     /* the clock at which a timed wait ends; else 0 */
    uint8_t priority[CUNGKALISA_TASKS]; /* its own priority, as it was made */
    uint8_t level[CUNGKALISA_TASKS];    /* how urgent it is now: inherited or its own */
    uint8_t outcome[CUNGKALISA_TASKS];  /* how its last wait ended, CUNGKALISA_GRANTED .. */
    uint8_t wait[CUNGKALISA_TASKS];     /* what it waits for, CUNGKALISA_NO_WAIT .. */
    uint8_t object[CUNGKALISA_TASKS];   /* the mutex, semaphore or queue that it waits for; else 0 */
    uint8_t timed[CUNGKALISA_TASKS];    /* 1: its wait ends at its due time; else 0 */
    uint8_t n;                          /* how many tasks there are */
} cungkalisa_tasks;

typedef struct cungkalisa_semaphores {
    uint32_t count[CUNGKALISA_SEMAPHORES];   /* credits */
    uint32_t maximum[CUNGKALISA_SEMAPHORES]; /* how many credits there can be */
    uint8_t n;                               /* how many semaphores there are */
} cungkalisa_semaphores;

typedef struct cungkalisa_mutexes {
    uint8_t kind[CUNGKALISA_MUTEXES];  /* 0: plain, 1: its owner inherits the levels of those who wait for it */
    uint8_t owner[CUNGKALISA_MUTEXES]; /* the task that owns it, or CUNGKALISA_NONE */
    uint8_t n;                         /* how many mutexes there are */
} cungkalisa_mutexes;

/* The queues fill the block in order of id from word 0, width times depth words each. A queue's words are a ring of depth
 * places, and the k-th message behind the oldest stands at place oldest + k, less depth from there on. */
typedef struct cungkalisa_queues {
    uint8_t width[CUNGKALISA_QUEUES];  /* words of a message: 1, 2, 4 or 8 */
    uint8_t depth[CUNGKALISA_QUEUES];  /* how many messages there can be */
    uint8_t owner[CUNGKALISA_QUEUES];  /* the only task that may receive, or CUNGKALISA_NONE: any may */
    uint8_t oldest[CUNGKALISA_QUEUES]; /* the place of the oldest message, or of the next one where there is none */
    uint8_t used[CUNGKALISA_QUEUES];   /* how many messages there are */
    uint8_t n;                         /* how many queues there are */
} cungkalisa_queues;

typedef struct cungkalisa_state {
    cungkalisa_tasks tasks;
    cungkalisa_semaphores semaphores;
    uint32_t clock; /* ticks, from 4294967295 to 0 again */
    cungkalisa_mutexes mutexes;
    cungkalisa_queues queues;
    cungkalisa_task_list ready;   /* ready tasks, the next to run first */
    cungkalisa_task_list waiting; /* waiting tasks, the oldest wait first */
    uint8_t started;              /* 0: set-up, 1: started */
    uint8_t hold;                 /* how often scheduling is held */
    uint8_t running;              /* the running task, or CUNGKALISA_NONE */
} cungkalisa_state;

/* What the firmware keeps. A task holds eight words, at first 0: the message that it waits to send, or the one that it last
 * received, and zeros behind it. Word n of task i is words[8 * i + n]. */
typedef struct cungkalisa {
    cungkalisa_state state;
    uint32_t words[CUNGKALISA_TASKS * CUNGKALISA_WORDS];
} cungkalisa;

/* A compiler that lays the record out in another way stops here. */
typedef char cungkalisa_state_is_as_expected[sizeof(cungkalisa_state) == 332 ? 1 : -1];
typedef char cungkalisa_layout_is_as_expected[sizeof(cungkalisa) == 844 ? 1 : -1];

/* ---- Answers ---- */

/* The number of an answer. A step answered 0 or 1 is made; with any other number the record stays as it is. Where
 * several apply, they are given in this order: 14, 15, 4, 5, 6, 7, 8, 9, 10, 3, 11, 12; then 2 and 13. */
enum {
    CUNGKALISA_DONE = 0,          /* done */
    CUNGKALISA_WAITS = 1,         /* accepted, and the caller now waits */
    CUNGKALISA_AT_MAXIMUM = 2,    /* post: nobody waits, and the count is at its maximum */
    CUNGKALISA_WOULD_WAIT = 3,    /* the caller would wait, and the time given is 0 */
    CUNGKALISA_WRONG_PHASE = 4,   /* creation or start after start; any other step but level, outcome and word before it */
    CUNGKALISA_NO_CALLER = 5,     /* a step that a running task makes, with none running */
    CUNGKALISA_NO_SUCH = 6,       /* no such task, mutex, semaphore, queue or owner */
    CUNGKALISA_OUT_OF_RANGE = 7,  /* a priority over 31, a kind over 1, a maximum of 0, a count over the maximum, a time
                                     outside its range, a width other than 1, 2, 4 or 8, a depth other than 1 to 64, a
                                     message of another width than the queue's, or a word over 7 */
    CUNGKALISA_FULL = 8,          /* creation with the table full, or of a queue for which the block has no room */
    CUNGKALISA_ALREADY_OWNED = 9, /* lock by the owner; send by the owner to its own full queue */
    CUNGKALISA_NOT_OWNER = 10,    /* unlock of a mutex that the caller doesn't own, a free one included; receive from a
                                     queue that another owns */
    CUNGKALISA_HELD = 11,         /* the caller would wait, or yield, while scheduling is held */
    CUNGKALISA_RING = 12,         /* lock or send whose wait would close a ring of waits */
    CUNGKALISA_HOLD_LIMIT = 13,   /* hold at depth 255, or free at depth 0 */
    CUNGKALISA_NO_STEP = 14,      /* the code is no step's, or a message has no word or over 8 */
    CUNGKALISA_UNSOUND = 15       /* the record isn't sound, or the block is too short for its queues */
};

/* The parts of an answer: bits 0 to 7, 8 to 15, and 32 to 63. */

/* Its number, CUNGKALISA_DONE .. CUNGKALISA_UNSOUND. */
uint8_t cungkalisa_number(uint64_t answer);

/* The task to run from now on, or CUNGKALISA_NONE. */
uint8_t cungkalisa_run(uint64_t answer);

/* Its value: the new id (task, mutex, sem, queue), the links of the chain (lock and send answered 1 or 12), the level, the
 * outcome, the word; else 0. */
uint32_t cungkalisa_value(uint64_t answer);

/* ---- The record made, tested and stepped ---- */

/* Makes the record fresh, whatever it was: set-up, nothing made, clock and hold 0, all words held 0. */
void cungkalisa_fresh(cungkalisa *k);

/* Is the record one that steps from a fresh record could have left, with a block of so many words, as far as its parts
 * tell? */
bool cungkalisa_is_sound(const cungkalisa *k, uint64_t block_words);

/* The codes of the steps. */
enum {
    CUNGKALISA_STEP_TASK = 0,
    CUNGKALISA_STEP_MUTEX = 1,
    CUNGKALISA_STEP_SEM = 2,
    CUNGKALISA_STEP_START = 3,
    CUNGKALISA_STEP_LOCK = 4,
    CUNGKALISA_STEP_UNLOCK = 5,
    CUNGKALISA_STEP_PEND = 6,
    CUNGKALISA_STEP_POST = 7,
    CUNGKALISA_STEP_FLUSH = 8,
    CUNGKALISA_STEP_SLEEP = 9,
    CUNGKALISA_STEP_YIELD = 10,
    CUNGKALISA_STEP_HOLD = 11,
    CUNGKALISA_STEP_FREE = 12,
    CUNGKALISA_STEP_TICK = 13,
    CUNGKALISA_STEP_LEVEL = 14,
    CUNGKALISA_STEP_OUTCOME = 15,
    CUNGKALISA_STEP_QUEUE = 16,
    CUNGKALISA_STEP_QUEUE_OWNED = 17,
    CUNGKALISA_STEP_SEND = 18,
    CUNGKALISA_STEP_RECEIVE = 19,
    CUNGKALISA_STEP_WORD = 20
};

/* Makes the step of a code, with as many of the numbers a, b and c as it has; the others are ignored. A send has a message
 * of count words, which the step only reads; the other steps ignore it. Of the block a step changes the words of one message
 * of its own queue at most. Neither pointer is NULL, even where it has no words. A code that is no step's is answered
 * CUNGKALISA_NO_STEP. */
uint64_t cungkalisa_step(cungkalisa *k, uint32_t code, uint32_t a, uint32_t b, uint32_t c, const uint32_t *message,
                         uint64_t count, uint32_t *block, uint64_t block_words);

/* What a step by value gives: the record after the step, and the answer. */
typedef struct cungkalisa_stepped {
    cungkalisa record;
    uint64_t answer;
} cungkalisa_stepped;

/* The same step on a record handed in by value: the caller's own stays as it is, and the record after the step comes back
 * beside the answer. The block is changed where it lies; a caller that looks before it steps keeps a copy of it. */
static inline cungkalisa_stepped cungkalisa_step_by_value(cungkalisa k, uint32_t code, uint32_t a, uint32_t b, uint32_t c,
                                                          const uint32_t *message, uint64_t count, uint32_t *block,
                                                          uint64_t block_words)
{
    cungkalisa_stepped after = {k, 0};
    after.answer = cungkalisa_step(&after.record, code, a, b, c, message, count, block, block_words);
    return after;
}

/* ---- The steps by name, on the record where it lies ---- */

/* A kernel as the steps by name take it: its record, and the block that it lends to its queues, with its length. Put
 * together once, it keeps each call short, and no step can get another block than the last one had. */
typedef struct cungkalisa_kernel {
    cungkalisa *record;
    uint32_t *block;
    uint64_t block_words;
} cungkalisa_kernel;

/* A step without a message: no word of the pointer handed in for it is read. */
static inline uint64_t cungkalisa_step_on(const cungkalisa_kernel *k, uint32_t code, uint32_t a, uint32_t b, uint32_t c)
{
    return cungkalisa_step(k->record, code, a, b, c, k->block, 0, k->block, k->block_words);
}

/* Set-up: a new task of this priority, 0 to 31. Value: its id. */
static inline uint64_t cungkalisa_task(const cungkalisa_kernel *k, uint32_t priority)
{
    return cungkalisa_step_on(k, CUNGKALISA_STEP_TASK, priority, 0, 0);
}

/* Set-up: a new mutex, plain (0) or inheriting (1). Value: its id. */
static inline uint64_t cungkalisa_mutex(const cungkalisa_kernel *k, uint32_t kind)
{
    return cungkalisa_step_on(k, CUNGKALISA_STEP_MUTEX, kind, 0, 0);
}

/* Set-up: a new semaphore with so many credits, and so many at most. Value: its id. */
static inline uint64_t cungkalisa_sem(const cungkalisa_kernel *k, uint32_t count, uint32_t maximum)
{
    return cungkalisa_step_on(k, CUNGKALISA_STEP_SEM, count, maximum, 0);
}

/* Ends set-up; the first ready task runs. */
static inline uint64_t cungkalisa_start(const cungkalisa_kernel *k)
{
    return cungkalisa_step_on(k, CUNGKALISA_STEP_START, 0, 0, 0);
}

/* The running task takes the mutex, or waits for it so long. Value, where it waits or a ring would close: how many
 * tasks stand on the chain from the mutex's owner on. */
static inline uint64_t cungkalisa_lock(const cungkalisa_kernel *k, uint32_t mutex, uint32_t time)
{
    return cungkalisa_step_on(k, CUNGKALISA_STEP_LOCK, mutex, time, 0);
}

/* The running task gives the mutex to the best waiter, or frees it. */
static inline uint64_t cungkalisa_unlock(const cungkalisa_kernel *k, uint32_t mutex)
{
    return cungkalisa_step_on(k, CUNGKALISA_STEP_UNLOCK, mutex, 0, 0);
}

/* The running task takes a credit, or waits for one so long. */
static inline uint64_t cungkalisa_pend(const cungkalisa_kernel *k, uint32_t semaphore, uint32_t time)
{
    return cungkalisa_step_on(k, CUNGKALISA_STEP_PEND, semaphore, time, 0);
}

/* From a task or an interrupt: a credit for the best waiter, or one more in store. */
static inline uint64_t cungkalisa_post(const cungkalisa_kernel *k, uint32_t semaphore)
{
    return cungkalisa_step_on(k, CUNGKALISA_STEP_POST, semaphore, 0, 0);
}

/* From a task or an interrupt: all who wait for the semaphore become ready, their waits flushed; of a level the oldest wait
 * first. */
static inline uint64_t cungkalisa_flush(const cungkalisa_kernel *k, uint32_t semaphore)
{
    return cungkalisa_step_on(k, CUNGKALISA_STEP_FLUSH, semaphore, 0, 0);
}

/* The running task waits for so many ticks, 1 to CUNGKALISA_MAX_TICKS. */
static inline uint64_t cungkalisa_sleep(const cungkalisa_kernel *k, uint32_t time)
{
    return cungkalisa_step_on(k, CUNGKALISA_STEP_SLEEP, time, 0, 0);
}

/* The running task goes behind the ready tasks of its level. */
static inline uint64_t cungkalisa_yield(const cungkalisa_kernel *k)
{
    return cungkalisa_step_on(k, CUNGKALISA_STEP_YIELD, 0, 0, 0);
}

/* The running task holds scheduling once more: nobody displaces it. */
static inline uint64_t cungkalisa_hold(const cungkalisa_kernel *k)
{
    return cungkalisa_step_on(k, CUNGKALISA_STEP_HOLD, 0, 0, 0);
}

/* The running task holds scheduling once less. */
static inline uint64_t cungkalisa_free(const cungkalisa_kernel *k)
{
    return cungkalisa_step_on(k, CUNGKALISA_STEP_FREE, 0, 0, 0);
}

/* From the timer: one tick, and the waits whose time is up end; those tasks become ready, of a level the oldest wait first. */
static inline uint64_t cungkalisa_tick(const cungkalisa_kernel *k)
{
    return cungkalisa_step_on(k, CUNGKALISA_STEP_TICK, 0, 0, 0);
}

/* In any phase. Value: the task's level. */
static inline uint64_t cungkalisa_level(const cungkalisa_kernel *k, uint32_t task)
{
    return cungkalisa_step_on(k, CUNGKALISA_STEP_LEVEL, task, 0, 0);
}

/* In any phase. Value: the task's outcome, CUNGKALISA_GRANTED .. */
static inline uint64_t cungkalisa_outcome(const cungkalisa_kernel *k, uint32_t task)
{
    return cungkalisa_step_on(k, CUNGKALISA_STEP_OUTCOME, task, 0, 0);
}

/* Set-up: a new queue of so many messages, 1 to 64, of so many words each, 1, 2, 4 or 8, from which any task may receive.
 * Value: its id. */
static inline uint64_t cungkalisa_queue(const cungkalisa_kernel *k, uint32_t width, uint32_t depth)
{
    return cungkalisa_step_on(k, CUNGKALISA_STEP_QUEUE, width, depth, 0);
}

/* Set-up: a new queue from which only its owner, a task already made, may receive; the owner inherits the levels of those who
 * wait to send to it. Value: its id. */
static inline uint64_t cungkalisa_queue_owned(const cungkalisa_kernel *k, uint32_t width, uint32_t depth, uint32_t owner)
{
    return cungkalisa_step_on(k, CUNGKALISA_STEP_QUEUE_OWNED, width, depth, owner);
}

/* The running task sends a message of count words, the queue's width: to the best task that waits to receive, or to the
 * queue's tail. Where the queue is full it waits so long for room, holding the words meanwhile; a message whose time runs out
 * is never queued. Value, where it waits or a ring would close: how many tasks stand on the chain from the queue's owner on,
 * 0 without one. */
static inline uint64_t cungkalisa_send(const cungkalisa_kernel *k, uint32_t queue, uint32_t time, const uint32_t *message, uint64_t count)
{
    return cungkalisa_step(k->record, CUNGKALISA_STEP_SEND, queue, time, 0, message, count, k->block, k->block_words);
}

/* The running task receives the oldest message, or waits for one so long. It holds the message's words then, once its wait
 * has ended with CUNGKALISA_GRANTED, until it waits to send or receives again. */
static inline uint64_t cungkalisa_receive(const cungkalisa_kernel *k, uint32_t queue, uint32_t time)
{
    return cungkalisa_step_on(k, CUNGKALISA_STEP_RECEIVE, queue, time, 0);
}

/* In any phase. Value: word n, 0 to 7, of those that the task holds. */
static inline uint64_t cungkalisa_word(const cungkalisa_kernel *k, uint32_t task, uint32_t n)
{
    return cungkalisa_step_on(k, CUNGKALISA_STEP_WORD, task, n, 0);
}

#ifdef __cplusplus
}
#endif

#endif
