/* The lean plain kernel: intrusive lists, a word of level marks, and inheritance done step by step along the chain. */
#include "lean.h"

#include <string.h>

const size_t lean_size = sizeof(struct lean);

/* ---- Lists ---- */

static void alone(struct lean_link *l)
{
    l->next = l;
    l->before = l;
}

static int is_alone(const struct lean_link *l)
{
    return l->next == l;
}

static void put_before(struct lean_link *at, struct lean_link *l)
{
    l->next = at;
    l->before = at->before;
    at->before->next = l;
    at->before = l;
}

static void take_out(struct lean_link *l)
{
    l->before->next = l->next;
    l->next->before = l->before;
    alone(l);
}

static struct lean_task *task_at(struct lean_link *place)
{
    return (struct lean_task *)((char *)place - offsetof(struct lean_task, place));
}

static struct lean_task *timed_at(struct lean_link *timed)
{
    return (struct lean_task *)((char *)timed - offsetof(struct lean_task, timed));
}

static struct lean_owned *owned_at(struct lean_link *held)
{
    return (struct lean_owned *)((char *)held - offsetof(struct lean_owned, held));
}

/* ---- Ready tasks and who runs ---- */

static void ready_at_tail(struct lean *k, struct lean_task *t)
{
    put_before(&k->ready[t->level], &t->place);
    k->marks |= 1u << t->level;
}

static void ready_at_head(struct lean *k, struct lean_task *t)
{
    put_before(k->ready[t->level].next, &t->place);
    k->marks |= 1u << t->level;
}

static void no_longer_ready(struct lean *k, struct lean_task *t)
{
    take_out(&t->place);
    if (is_alone(&k->ready[t->level]))
        k->marks &= ~(1u << t->level);
}

/* Bit i stands for task i: they go to the tails of their levels by ascending id. */
static void all_ready(struct lean *k, uint32_t tasks)
{
    for (; tasks; tasks &= tasks - 1)
        ready_at_tail(k, &k->tasks[__builtin_ctz(tasks)]);
}

static void dispatch(struct lean *k)
{
    if (!k->marks)
        return;
    struct lean_task *old = k->running;
    uint32_t level = (uint32_t)__builtin_ctz(k->marks);
    if (old && (k->hold || level >= old->level))
        return;
    k->running = task_at(k->ready[level].next);
    no_longer_ready(k, k->running);
    if (old)
        ready_at_head(k, old);
}

/* ---- Waits ---- */

static void set_time(struct lean *k, struct lean_task *t, uint32_t time)
{
    struct lean_link *at = k->timed.next;
    t->due = k->clock + time;
    /* Ticks left, not due times, are compared: the clock wraps. Behind those that end with it, which are older. */
    while (at != &k->timed && timed_at(at)->due - k->clock <= time)
        at = at->next;
    put_before(at, &t->timed);
}

/* The running task waits, as the youngest of the waiters; a sleep has none. */
static struct lean_task *begin_wait(struct lean *k, struct lean_link *waiters, uint32_t time, uint8_t late)
{
    struct lean_task *t = k->running;
    k->running = NULL;
    t->outcome = CUNGKALISA_PENDING;
    t->late = late;
    if (waiters)
        put_before(waiters, &t->place);
    if (time != CUNGKALISA_FOREVER)
        set_time(k, t, time);
    return t;
}

static void end_wait(struct lean_task *t, uint8_t outcome)
{
    take_out(&t->place);
    take_out(&t->timed);
    t->behind = NULL;
    t->outcome = outcome;
}

/* The first of the most urgent ones, since the oldest wait stands first. */
static struct lean_task *best_waiter(struct lean_link *waiters)
{
    struct lean_task *best = NULL;
    for (struct lean_link *at = waiters->next; at != waiters; at = at->next) {
        struct lean_task *t = task_at(at);
        if (!best || t->level < best->level)
            best = t;
    }
    return best;
}

/* ---- Inheritance ---- */

/* How many tasks stand on the chain of what has owners; the caller, if it is met, ends it and closes a ring. */
static uint32_t chain(const struct lean_owned *o, const struct lean_task *caller, int *ring)
{
    uint32_t links = 0;
    for (; o && o->owner && o->owner != caller; o = o->owner->behind)
        links++;
    *ring = o && o->owner;
    return links;
}

/* Gives the task's bit if it stood ready: it is then in no list, and has yet to go to the tail of its new level. A task
 * that runs, or was woken by this very step, is in no list either, and stays so. */
static uint32_t change_level(struct lean *k, struct lean_task *t, uint8_t level)
{
    uint32_t moved = 0;
    if (t->outcome != CUNGKALISA_PENDING && !is_alone(&t->place)) {
        no_longer_ready(k, t);
        moved = 1u << t->id;
    }
    t->level = level;
    return moved;
}

/* A task of this level has come to wait: lifts the owners up the chain. */
static uint32_t lift(struct lean *k, struct lean_owned *o, uint8_t level)
{
    uint32_t moved = 0;
    for (; o && o->inheriting && o->owner->level > level; o = o->owner->behind)
        moved |= change_level(k, o->owner, level);
    return moved;
}

static uint8_t level_of(struct lean_task *t)
{
    uint8_t level = t->priority;
    for (struct lean_link *at = t->owned.next; at != &t->owned; at = at->next) {
        const struct lean_task *best = best_waiter(&owned_at(at)->waiters);
        if (best && best->level < level)
            level = best->level;
    }
    return level;
}

/* A task of this level no longer waits, or is no longer of this level: lowers the owners up the chain, as far as it was the
 * one that had lifted them. */
static uint32_t lower(struct lean *k, struct lean_owned *o, uint8_t gone)
{
    uint32_t moved = 0;
    for (; o && o->inheriting; o = o->owner->behind) {
        struct lean_task *owner = o->owner;
        if (owner->level != gone || owner->priority == gone)
            break;
        uint8_t level = level_of(owner);
        if (level == gone)
            break;
        moved |= change_level(k, owner, level);
    }
    return moved;
}

static void own(struct lean_owned *o, struct lean_task *t)
{
    o->owner = t;
    if (o->inheriting)
        put_before(&t->owned, &o->held);
}

static void make_owned(struct lean_owned *o, uint8_t inheriting)
{
    alone(&o->waiters);
    alone(&o->held);
    o->owner = NULL;
    o->inheriting = inheriting;
}

/* ---- Messages ---- */

/* The block's words for the message that stands so many behind the oldest. */
static uint32_t *message_at(const struct lean_queue *q, uint32_t *block, uint32_t behind)
{
    uint32_t place = q->oldest + behind;
    if (place >= q->depth)
        place -= q->depth;
    return block + q->start + place * q->width;
}

static void put_words(uint32_t *to, const uint32_t *words, uint32_t count)
{
    memcpy(to, words, count * sizeof *to);
}

/* The task holds the message, and zeros behind it. */
static void hold_words(struct lean_task *t, const uint32_t *message, uint32_t count)
{
    put_words(t->words, message, count);
    memset(t->words + count, 0, (CUNGKALISA_WORDS - count) * sizeof *t->words);
}

/* ---- The steps. Each gives the answer's number, and its value above it; phase and caller are looked at before. ---- */

static uint64_t with_value(uint8_t number, uint32_t value)
{
    return number | (uint64_t)value << 32;
}

static int is_no_time(uint32_t time)
{
    return time > CUNGKALISA_MAX_TICKS && time != CUNGKALISA_FOREVER;
}

static uint64_t make_task(struct lean *k, uint32_t priority)
{
    if (priority > CUNGKALISA_LEAST_URGENT)
        return CUNGKALISA_OUT_OF_RANGE;
    if (k->tasks_made == CUNGKALISA_TASKS)
        return CUNGKALISA_FULL;
    struct lean_task *t = &k->tasks[k->tasks_made];
    alone(&t->place);
    alone(&t->timed);
    alone(&t->owned);
    t->behind = NULL;
    memset(t->words, 0, sizeof t->words);
    t->id = k->tasks_made++;
    t->priority = (uint8_t)priority;
    t->level = (uint8_t)priority;
    t->outcome = CUNGKALISA_GRANTED;
    ready_at_tail(k, t);
    return with_value(CUNGKALISA_DONE, t->id);
}

static uint64_t make_mutex(struct lean *k, uint32_t kind)
{
    if (kind > 1)
        return CUNGKALISA_OUT_OF_RANGE;
    if (k->mutexes_made == CUNGKALISA_MUTEXES)
        return CUNGKALISA_FULL;
    make_owned(&k->mutexes[k->mutexes_made], (uint8_t)kind);
    return with_value(CUNGKALISA_DONE, k->mutexes_made++);
}

static uint64_t make_semaphore(struct lean *k, uint32_t count, uint32_t maximum)
{
    if (maximum == 0 || count > maximum)
        return CUNGKALISA_OUT_OF_RANGE;
    if (k->semaphores_made == CUNGKALISA_SEMAPHORES)
        return CUNGKALISA_FULL;
    struct lean_semaphore *s = &k->semaphores[k->semaphores_made];
    alone(&s->waiters);
    s->count = count;
    s->maximum = maximum;
    return with_value(CUNGKALISA_DONE, k->semaphores_made++);
}

/* The owner is a task, or NULL. */
static uint64_t make_queue(struct lean *k, uint32_t width, uint32_t depth, struct lean_task *owner, uint64_t block_words)
{
    if ((width != 1 && width != 2 && width != 4 && width != 8) || depth == 0 || depth > CUNGKALISA_MOST_MESSAGES)
        return CUNGKALISA_OUT_OF_RANGE;
    if (k->queues_made == CUNGKALISA_QUEUES || k->block_used + width * depth > block_words)
        return CUNGKALISA_FULL;
    struct lean_queue *q = &k->queues[k->queues_made];
    make_owned(&q->room, owner != NULL);
    if (owner)
        own(&q->room, owner);
    alone(&q->receivers);
    q->start = k->block_used;
    q->width = (uint8_t)width;
    q->depth = (uint8_t)depth;
    q->oldest = 0;
    q->used = 0;
    k->block_used += width * depth;
    return with_value(CUNGKALISA_DONE, k->queues_made++);
}

static uint64_t make_queue_owned(struct lean *k, uint32_t width, uint32_t depth, uint32_t owner, uint64_t block_words)
{
    if (owner >= k->tasks_made)
        return CUNGKALISA_NO_SUCH;
    return make_queue(k, width, depth, &k->tasks[owner], block_words);
}

static uint64_t start(struct lean *k)
{
    k->started = 1;
    dispatch(k);
    return CUNGKALISA_DONE;
}

/* The running task waits for what another owns, or nobody does. */
static uint64_t wait_behind(struct lean *k, struct lean_owned *o, uint32_t time)
{
    struct lean_task *caller = k->running;
    if (time == 0)
        return CUNGKALISA_WOULD_WAIT;
    if (k->hold)
        return CUNGKALISA_HELD;
    int ring;
    uint32_t links = chain(o, caller, &ring);
    if (ring)
        return with_value(CUNGKALISA_RING, links);
    begin_wait(k, &o->waiters, time, CUNGKALISA_TIMED_OUT)->behind = o;
    all_ready(k, lift(k, o, caller->level));
    dispatch(k);
    return with_value(CUNGKALISA_WAITS, links);
}

static uint64_t lock(struct lean *k, uint32_t mutex, uint32_t time)
{
    if (mutex >= k->mutexes_made)
        return CUNGKALISA_NO_SUCH;
    if (is_no_time(time))
        return CUNGKALISA_OUT_OF_RANGE;
    struct lean_owned *m = &k->mutexes[mutex];
    if (!m->owner) {
        own(m, k->running);
        return CUNGKALISA_DONE;
    }
    if (m->owner == k->running)
        return CUNGKALISA_ALREADY_OWNED;
    return wait_behind(k, m, time);
}

/* The new owner keeps its level: nobody who still waits is more urgent. */
static uint64_t unlock(struct lean *k, uint32_t mutex)
{
    if (mutex >= k->mutexes_made)
        return CUNGKALISA_NO_SUCH;
    struct lean_owned *m = &k->mutexes[mutex];
    if (m->owner != k->running)
        return CUNGKALISA_NOT_OWNER;
    take_out(&m->held);
    struct lean_task *best = best_waiter(&m->waiters);
    if (!best) {
        m->owner = NULL;
        return CUNGKALISA_DONE;
    }
    end_wait(best, CUNGKALISA_GRANTED);
    lower(k, m, best->level);
    own(m, best);
    ready_at_tail(k, best);
    dispatch(k);
    return CUNGKALISA_DONE;
}

static uint64_t send(struct lean *k, uint32_t queue, uint32_t time, const uint32_t *message, uint64_t count, uint32_t *block)
{
    if (queue >= k->queues_made)
        return CUNGKALISA_NO_SUCH;
    struct lean_queue *q = &k->queues[queue];
    if (is_no_time(time) || count != q->width)
        return CUNGKALISA_OUT_OF_RANGE;
    struct lean_task *caller = k->running;
    struct lean_task *best = best_waiter(&q->receivers);
    if (best) {
        hold_words(best, message, q->width);
        end_wait(best, CUNGKALISA_GRANTED);
        ready_at_tail(k, best);
        dispatch(k);
        return CUNGKALISA_DONE;
    }
    if (q->used < q->depth) {
        put_words(message_at(q, block, q->used++), message, q->width);
        return CUNGKALISA_DONE;
    }
    if (q->room.owner == caller)
        return CUNGKALISA_ALREADY_OWNED;
    uint64_t answer = wait_behind(k, &q->room, time);
    if ((uint8_t)answer == CUNGKALISA_WAITS)
        hold_words(caller, message, q->width);
    return answer;
}

static uint64_t receive(struct lean *k, uint32_t queue, uint32_t time, uint32_t *block)
{
    if (queue >= k->queues_made)
        return CUNGKALISA_NO_SUCH;
    if (is_no_time(time))
        return CUNGKALISA_OUT_OF_RANGE;
    struct lean_queue *q = &k->queues[queue];
    if (q->room.owner && q->room.owner != k->running)
        return CUNGKALISA_NOT_OWNER;
    if (q->used == 0) {
        if (time == 0)
            return CUNGKALISA_WOULD_WAIT;
        if (k->hold)
            return CUNGKALISA_HELD;
        begin_wait(k, &q->receivers, time, CUNGKALISA_TIMED_OUT);
        dispatch(k);
        return CUNGKALISA_WAITS;
    }
    uint32_t *oldest = message_at(q, block, 0);
    hold_words(k->running, oldest, q->width);
    q->oldest = (uint8_t)(q->oldest + 1 == q->depth ? 0 : q->oldest + 1);
    struct lean_task *best = best_waiter(&q->room.waiters);
    if (!best) {
        q->used--;
        return CUNGKALISA_DONE;
    }
    /* The place that the oldest had is the tail now. */
    put_words(oldest, best->words, q->width);
    end_wait(best, CUNGKALISA_GRANTED);
    lower(k, &q->room, best->level);
    ready_at_tail(k, best);
    dispatch(k);
    return CUNGKALISA_DONE;
}

static uint64_t pend(struct lean *k, uint32_t semaphore, uint32_t time)
{
    if (semaphore >= k->semaphores_made)
        return CUNGKALISA_NO_SUCH;
    if (is_no_time(time))
        return CUNGKALISA_OUT_OF_RANGE;
    struct lean_semaphore *s = &k->semaphores[semaphore];
    if (s->count > 0) {
        s->count--;
        return CUNGKALISA_DONE;
    }
    if (time == 0)
        return CUNGKALISA_WOULD_WAIT;
    if (k->hold)
        return CUNGKALISA_HELD;
    begin_wait(k, &s->waiters, time, CUNGKALISA_TIMED_OUT);
    dispatch(k);
    return CUNGKALISA_WAITS;
}

static uint64_t post(struct lean *k, uint32_t semaphore)
{
    if (semaphore >= k->semaphores_made)
        return CUNGKALISA_NO_SUCH;
    struct lean_semaphore *s = &k->semaphores[semaphore];
    struct lean_task *best = best_waiter(&s->waiters);
    if (best) {
        end_wait(best, CUNGKALISA_GRANTED);
        ready_at_tail(k, best);
        dispatch(k);
        return CUNGKALISA_DONE;
    }
    if (s->count == s->maximum)
        return CUNGKALISA_AT_MAXIMUM;
    s->count++;
    return CUNGKALISA_DONE;
}

static uint64_t flush(struct lean *k, uint32_t semaphore)
{
    if (semaphore >= k->semaphores_made)
        return CUNGKALISA_NO_SUCH;
    struct lean_semaphore *s = &k->semaphores[semaphore];
    while (!is_alone(&s->waiters)) {
        struct lean_task *t = task_at(s->waiters.next);
        end_wait(t, CUNGKALISA_FLUSHED);
        ready_at_tail(k, t);
    }
    dispatch(k);
    return CUNGKALISA_DONE;
}

static uint64_t go_to_sleep(struct lean *k, uint32_t time)
{
    if (time == 0 || time > CUNGKALISA_MAX_TICKS)
        return CUNGKALISA_OUT_OF_RANGE;
    if (k->hold)
        return CUNGKALISA_HELD;
    begin_wait(k, NULL, time, CUNGKALISA_GRANTED);
    dispatch(k);
    return CUNGKALISA_WAITS;
}

static uint64_t yield(struct lean *k)
{
    if (k->hold)
        return CUNGKALISA_HELD;
    ready_at_tail(k, k->running);
    k->running = NULL;
    dispatch(k);
    return CUNGKALISA_DONE;
}

static uint64_t hold(struct lean *k)
{
    if (k->hold == UINT8_MAX)
        return CUNGKALISA_HOLD_LIMIT;
    k->hold++;
    return CUNGKALISA_DONE;
}

static uint64_t free_again(struct lean *k)
{
    if (k->hold == 0)
        return CUNGKALISA_HOLD_LIMIT;
    k->hold--;
    dispatch(k);
    return CUNGKALISA_DONE;
}

/* All waits end before any task becomes ready: those whose level changed go first, then the woken ones, oldest wait first, as they
 * stand among those whose time is up. */
static uint64_t tick(struct lean *k)
{
    uint8_t woken[CUNGKALISA_TASKS];
    uint32_t moved = 0, n = 0;
    k->clock++;
    while (!is_alone(&k->timed) && timed_at(k->timed.next)->due == k->clock) {
        struct lean_task *t = timed_at(k->timed.next);
        struct lean_owned *behind = t->behind;
        end_wait(t, t->late);
        woken[n++] = t->id;
        moved |= lower(k, behind, t->level);
    }
    if (!n)
        return CUNGKALISA_DONE;
    all_ready(k, moved);
    for (uint32_t i = 0; i < n; i++)
        ready_at_tail(k, &k->tasks[woken[i]]);
    dispatch(k);
    return CUNGKALISA_DONE;
}

/* ---- The step of a code ---- */

/* Bit c: the step of code c is one of set-up, is made by a running task, asks what may be asked in any phase. */
#define OF_SET_UP                                                                                              \
    (1u << CUNGKALISA_STEP_TASK | 1u << CUNGKALISA_STEP_MUTEX | 1u << CUNGKALISA_STEP_SEM |                    \
     1u << CUNGKALISA_STEP_START | 1u << CUNGKALISA_STEP_QUEUE | 1u << CUNGKALISA_STEP_QUEUE_OWNED)
#define BY_A_TASK                                                                                              \
    (1u << CUNGKALISA_STEP_LOCK | 1u << CUNGKALISA_STEP_UNLOCK | 1u << CUNGKALISA_STEP_PEND |                  \
     1u << CUNGKALISA_STEP_SLEEP | 1u << CUNGKALISA_STEP_YIELD | 1u << CUNGKALISA_STEP_HOLD |                  \
     1u << CUNGKALISA_STEP_FREE | 1u << CUNGKALISA_STEP_SEND | 1u << CUNGKALISA_STEP_RECEIVE)
#define ASKED (1u << CUNGKALISA_STEP_LEVEL | 1u << CUNGKALISA_STEP_OUTCOME | 1u << CUNGKALISA_STEP_WORD)

static uint64_t started_step(struct lean *k, uint32_t code, uint32_t a, uint32_t b, const uint32_t *message, uint64_t count,
                             uint32_t *block)
{
    if (!k->started)
        return CUNGKALISA_WRONG_PHASE;
    if (BY_A_TASK >> code & 1 && !k->running)
        return CUNGKALISA_NO_CALLER;
    switch (code) {
    case CUNGKALISA_STEP_LOCK: return lock(k, a, b);
    case CUNGKALISA_STEP_UNLOCK: return unlock(k, a);
    case CUNGKALISA_STEP_PEND: return pend(k, a, b);
    case CUNGKALISA_STEP_POST: return post(k, a);
    case CUNGKALISA_STEP_FLUSH: return flush(k, a);
    case CUNGKALISA_STEP_SLEEP: return go_to_sleep(k, a);
    case CUNGKALISA_STEP_YIELD: return yield(k);
    case CUNGKALISA_STEP_HOLD: return hold(k);
    case CUNGKALISA_STEP_FREE: return free_again(k);
    case CUNGKALISA_STEP_SEND: return send(k, a, b, message, count, block);
    case CUNGKALISA_STEP_RECEIVE: return receive(k, a, b, block);
    default: return tick(k);
    }
}

static uint64_t set_up_step(struct lean *k, uint32_t code, uint32_t a, uint32_t b, uint32_t c, uint64_t block_words)
{
    if (k->started)
        return CUNGKALISA_WRONG_PHASE;
    switch (code) {
    case CUNGKALISA_STEP_TASK: return make_task(k, a);
    case CUNGKALISA_STEP_MUTEX: return make_mutex(k, a);
    case CUNGKALISA_STEP_SEM: return make_semaphore(k, a, b);
    case CUNGKALISA_STEP_QUEUE: return make_queue(k, a, b, NULL, block_words);
    case CUNGKALISA_STEP_QUEUE_OWNED: return make_queue_owned(k, a, b, c, block_words);
    default: return start(k);
    }
}

static uint64_t asked(const struct lean *k, uint32_t code, uint32_t task, uint32_t n)
{
    if (task >= k->tasks_made)
        return CUNGKALISA_NO_SUCH;
    if (code == CUNGKALISA_STEP_LEVEL)
        return with_value(CUNGKALISA_DONE, k->tasks[task].level);
    if (code == CUNGKALISA_STEP_OUTCOME)
        return with_value(CUNGKALISA_DONE, k->tasks[task].outcome);
    if (n >= CUNGKALISA_WORDS)
        return CUNGKALISA_OUT_OF_RANGE;
    return with_value(CUNGKALISA_DONE, k->tasks[task].words[n]);
}

static int is_no_step(uint32_t code, uint64_t count)
{
    return code > CUNGKALISA_STEP_WORD || (code == CUNGKALISA_STEP_SEND && (count == 0 || count > CUNGKALISA_WORDS));
}

uint64_t lean_step(struct lean *k, uint32_t code, uint32_t a, uint32_t b, uint32_t c, const uint32_t *message, uint64_t count,
                   uint32_t *block, uint64_t block_words)
{
    uint64_t answer;
    if (is_no_step(code, count))
        answer = CUNGKALISA_NO_STEP;
    else if (OF_SET_UP >> code & 1)
        answer = set_up_step(k, code, a, b, c, block_words);
    else if (ASKED >> code & 1)
        answer = asked(k, code, a, b);
    else
        answer = started_step(k, code, a, b, message, count, block);
    return answer | (uint64_t)(k->running ? k->running->id : CUNGKALISA_NONE) << 8;
}

void lean_fresh(struct lean *k)
{
    for (uint32_t level = 0; level < LEAN_LEVELS; level++)
        alone(&k->ready[level]);
    alone(&k->timed);
    k->marks = 0;
    k->clock = 0;
    k->running = NULL;
    k->started = 0;
    k->hold = 0;
    k->tasks_made = 0;
    k->mutexes_made = 0;
    k->semaphores_made = 0;
    k->queues_made = 0;
    k->block_used = 0;
}
