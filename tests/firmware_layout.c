/* The header and the library mean the same bytes: every field of the record, every word held and every word of the block is
 * written by the one and read by the other. With a file's name as its argument it also writes each field's name, place and size
 * there. */
#include "cungkalisa.h"

#include <stddef.h>
#include <stdio.h>
#include <stdlib.h>
#include <string.h>

/* Words of the block: as many as the queues of this test have. */
enum { BLOCK = 638 };

/* A record and a block, those that the library changes and those as they should be then. */
static cungkalisa record, want;
static uint32_t block[BLOCK], want_block[BLOCK];
static const cungkalisa_kernel kernel = {&record, block, BLOCK};

static int checks;

static void expect(int holds, const char *what, int at)
{
    checks++;
    if (!holds) {
        printf("layout: %s, at %d: not as expected\n", what, at);
        exit(1);
    }
}

/* Each field's place and size, as the proved record has them. */
static FILE *table;

static void field_is(const char *name, size_t offset, size_t size, size_t wanted_offset, size_t wanted_size)
{
    if (table)
        fprintf(table, "%s %zu %zu\n", name, offset, size);
    expect(offset == wanted_offset && size == wanted_size, name, (int)offset);
}

#define FIELD(field, offset, size) \
    field_is(#field, offsetof(cungkalisa_state, field), sizeof(((cungkalisa_state *)0)->field), offset, size)

static void places(void)
{
    FIELD(tasks.due, 0, 64);
    FIELD(tasks.priority, 64, 16);
    FIELD(tasks.level, 80, 16);
    FIELD(tasks.outcome, 96, 16);
    FIELD(tasks.wait, 112, 16);
    FIELD(tasks.object, 128, 16);
    FIELD(tasks.timed, 144, 16);
    FIELD(tasks.n, 160, 1);
    FIELD(semaphores.count, 164, 32);
    FIELD(semaphores.maximum, 196, 32);
    FIELD(semaphores.n, 228, 1);
    FIELD(clock, 232, 4);
    FIELD(mutexes.kind, 236, 8);
    FIELD(mutexes.owner, 244, 8);
    FIELD(mutexes.n, 252, 1);
    FIELD(queues.width, 253, 8);
    FIELD(queues.depth, 261, 8);
    FIELD(queues.owner, 269, 8);
    FIELD(queues.oldest, 277, 8);
    FIELD(queues.used, 285, 8);
    FIELD(queues.n, 293, 1);
    FIELD(ready.ids, 294, 16);
    FIELD(ready.n, 310, 1);
    FIELD(waiting.ids, 311, 16);
    FIELD(waiting.n, 327, 1);
    FIELD(started, 328, 1);
    FIELD(hold, 329, 1);
    FIELD(running, 330, 1);
    field_is("words", offsetof(cungkalisa, words), sizeof record.words, 332, 512);
    expect(sizeof(cungkalisa_state) == 332 && offsetof(cungkalisa, state) == 0, "the state", 0);
    expect(sizeof(cungkalisa) == 844, "size of the record", 0);
}

/* The bytes of the state that no field has. */
static int is_padding(int at)
{
    return (at >= 161 && at < 164) || (at >= 229 && at < 232) || at == 331;
}

/* Is the record as it should be, byte for byte? */
static void same_record(const cungkalisa *k, const cungkalisa *wanted, const char *what, int which)
{
    const unsigned char *a = (const unsigned char *)k, *b = (const unsigned char *)wanted;
    for (int at = 0; at < (int)sizeof *k; at++)
        if (!is_padding(at) && a[at] != b[at]) {
            printf("byte %d is %d and not %d; ", at, a[at], b[at]);
            expect(0, what, which);
        }
    expect(1, what, which);
}

/* Are record and block as they should be? */
static void same(const char *what, int which)
{
    same_record(&record, &want, what, which);
    expect(memcmp(block, want_block, sizeof block) == 0, what, which);
}

static void answered(uint64_t answer, int number, uint32_t value, int run, const char *what, int which)
{
    expect(cungkalisa_number(answer) == number, what, which);
    expect(cungkalisa_value(answer) == value, what, which);
    expect(cungkalisa_run(answer) == run, what, which);
    expect(answer == ((uint64_t)value << 32 | (uint64_t)run << 8 | (uint64_t)number), what, which);
}

/* What stands where in the fresh record, field by field. */
static void fresh_fields(void)
{
    cungkalisa_state *w = &want.state;
    memset(&want, 0, sizeof want);
    memset(w->mutexes.owner, CUNGKALISA_NONE, sizeof w->mutexes.owner);
    memset(w->queues.owner, CUNGKALISA_NONE, sizeof w->queues.owner);
    memset(w->ready.ids, CUNGKALISA_NONE, sizeof w->ready.ids);
    memset(w->waiting.ids, CUNGKALISA_NONE, sizeof w->waiting.ids);
    w->running = CUNGKALISA_NONE;
}

/* Creation writes the tables, a place at a time. Task i has priority 31 - 2 i, so that each new one stands first. */
static void make_tasks(void)
{
    cungkalisa_state *w = &want.state;
    for (int i = 0; i < 16; i++) {
        uint8_t p = (uint8_t)(31 - 2 * i);
        answered(cungkalisa_task(&kernel, p), 0, (uint32_t)i, 255, "task", i);
        w->tasks.priority[i] = w->tasks.level[i] = p;
        w->tasks.n++;
        memmove(w->ready.ids + 1, w->ready.ids, 15);
        w->ready.ids[0] = (uint8_t)i;
        w->ready.n++;
        same("task", i);
    }
    answered(cungkalisa_task(&kernel, 0), CUNGKALISA_FULL, 0, 255, "one task too many", 16);
    same("one task too many", 16);
}

static void make_mutexes_and_semaphores(void)
{
    cungkalisa_state *w = &want.state;
    for (int i = 0; i < 8; i++) {
        answered(cungkalisa_mutex(&kernel, i % 3 == 0), 0, (uint32_t)i, 255, "mutex", i);
        w->mutexes.kind[i] = i % 3 == 0;
        w->mutexes.n++;
        same("mutex", i);
    }
    for (int i = 0; i < 8; i++) {
        uint32_t count = i == 7 ? 0 : 0x01020304u * (uint32_t)(i + 1), maximum = 0xa0b0c0d0u + (uint32_t)i;
        answered(cungkalisa_sem(&kernel, count, maximum), 0, (uint32_t)i, 255, "sem", i);
        w->semaphores.count[i] = count;
        w->semaphores.maximum[i] = maximum;
        w->semaphores.n++;
        same("sem", i);
    }
}

/* The queues, and where each begins in the block; the last one ends with it. */
static const uint8_t widths[8] = {1, 2, 4, 8, 1, 2, 4, 8};
static const uint8_t depths[8] = {1, 2, 3, 64, 5, 6, 7, 8};
static const uint8_t owners[8] = {255, 15, 255, 3, 255, 0, 255, 7};
static const int starts[8] = {0, 1, 5, 17, 529, 534, 546, 574};

static void make_queues(void)
{
    cungkalisa_state *w = &want.state;
    for (int i = 0; i < 8; i++) {
        uint64_t answer = owners[i] == CUNGKALISA_NONE ? cungkalisa_queue(&kernel, widths[i], depths[i])
                                                       : cungkalisa_queue_owned(&kernel, widths[i], depths[i], owners[i]);
        answered(answer, 0, (uint32_t)i, 255, "queue", i);
        w->queues.width[i] = widths[i];
        w->queues.depth[i] = depths[i];
        w->queues.owner[i] = owners[i];
        w->queues.n++;
        same("queue", i);
    }
    answered(cungkalisa_queue(&kernel, 1, 1), CUNGKALISA_FULL, 0, 255, "one queue too many", 8);
    same("one queue too many", 8);
}

/* The running task begins to wait, and the first ready one runs. */
static void waits(uint8_t kind, uint8_t object, uint32_t time)
{
    cungkalisa_state *w = &want.state;
    uint8_t i = w->running;
    w->tasks.wait[i] = kind;
    w->tasks.object[i] = object;
    w->tasks.outcome[i] = CUNGKALISA_PENDING;
    if (time != CUNGKALISA_FOREVER) {
        w->tasks.timed[i] = 1;
        w->tasks.due[i] = w->clock + time;
    }
    w->waiting.ids[w->waiting.n++] = i;
    w->running = w->ready.ids[0];
    memmove(w->ready.ids, w->ready.ids + 1, 15);
    w->ready.ids[15] = CUNGKALISA_NONE;
    if (w->ready.n > 0)
        w->ready.n--;
}

/* Started: the first task runs. */
static void start_all(void)
{
    cungkalisa_state *w = &want.state;
    answered(cungkalisa_start(&kernel), 0, 0, 15, "start", 0);
    w->started = 1;
    w->running = 15;
    memmove(w->ready.ids, w->ready.ids + 1, 15);
    w->ready.ids[15] = CUNGKALISA_NONE;
    w->ready.n--;
    same("start", 0);
}

/* Every depth of hold, and every mutex taken by the running task. */
static void hold_all(void)
{
    for (int i = 1; i < 256; i++) {
        answered(cungkalisa_hold(&kernel), 0, 0, 15, "hold", i);
        want.state.hold = (uint8_t)i;
        same("hold", i);
    }
    for (int i = 255; i > 0; i--) {
        answered(cungkalisa_free(&kernel), 0, 0, 15, "free", i);
        want.state.hold = (uint8_t)(i - 1);
        same("free", i);
    }
    for (uint32_t m = 0; m < 8; m++) {
        answered(cungkalisa_lock(&kernel, m, 0), 0, 0, 15, "lock", (int)m);
        want.state.mutexes.owner[m] = 15;
        same("lock", (int)m);
    }
}

/* A message that no other send of this test has. */
static const uint32_t *new_message(void)
{
    static uint32_t message[CUNGKALISA_WORDS], last;
    for (int n = 0; n < CUNGKALISA_WORDS; n++)
        message[n] = 0x10203040u + ++last;
    return message;
}

/* The running task sends a message to the tail of a queue that has room. */
static void send_one(uint8_t q)
{
    cungkalisa_queues *w = &want.state.queues;
    int place = (w->oldest[q] + w->used[q]) % depths[q];
    const uint32_t *message = new_message();
    answered(cungkalisa_send(&kernel, q, 0, message, widths[q]), 0, 0, 15, "send", q);
    memcpy(want_block + starts[q] + place * widths[q], message, widths[q] * sizeof *message);
    w->used[q]++;
    same("send", q);
}

/* The running task, 15, receives the oldest message, and holds its words. */
static void receive_one(uint8_t q)
{
    cungkalisa_queues *w = &want.state.queues;
    uint32_t *held = want.words + 15 * CUNGKALISA_WORDS;
    answered(cungkalisa_receive(&kernel, q, 0), 0, 0, 15, "receive", q);
    memset(held, 0, CUNGKALISA_WORDS * sizeof *held);
    memcpy(held, want_block + starts[q] + w->oldest[q] * widths[q], widths[q] * sizeof *held);
    w->oldest[q] = (uint8_t)((w->oldest[q] + 1) % depths[q]);
    w->used[q]--;
    same("receive", q);
    for (uint32_t n = 0; n < CUNGKALISA_WORDS; n++)
        answered(cungkalisa_word(&kernel, 15, n), 0, held[n], 15, "word", (int)n);
}

/* Every word of every queue written, and the rings gone round where task 15 may receive. Then queues 2 and 3 are empty, the
 * others full. */
static void queue_all(void)
{
    for (uint8_t q = 0; q < 8; q++) {
        int may_receive = owners[q] == CUNGKALISA_NONE || owners[q] == 15;
        for (int i = 0; i < depths[q] + 1 && may_receive; i++) {
            send_one(q);
            receive_one(q);
        }
        for (int i = 0; i < depths[q] && q != 3; i++)
            send_one(q);
    }
    for (int i = 0; i < depths[2]; i++)
        receive_one(2);
    answered(cungkalisa_receive(&kernel, 3, 0), CUNGKALISA_NOT_OWNER, 0, 15, "receive by another", 3);
    answered(cungkalisa_send(&kernel, 1, 5, new_message(), 2), CUNGKALISA_ALREADY_OWNED, 0, 15, "send by the owner", 1);
    answered(cungkalisa_send(&kernel, 0, 0, new_message(), 2), CUNGKALISA_OUT_OF_RANGE, 0, 15, "send of two words", 0);
    same("refused sends and receives", 0);
}

/* Task i begins to wait to send to a full queue, holding its message; so many tasks are on its chain. */
static void send_and_wait(int i, uint8_t q, uint32_t time, uint32_t links)
{
    const uint32_t *message = new_message();
    answered(cungkalisa_send(&kernel, q, time, message, widths[q]), 1, links, i - 1, "send", i);
    memcpy(want.words + i * CUNGKALISA_WORDS, message, widths[q] * sizeof *message);
    waits(CUNGKALISA_TO_SEND, q, time);
}

/* Each task begins to wait, in turn: 15, which owns all mutexes, for time, the next eight for one mutex each, 6 and 5 to send to
 * a full queue, without and with an owner, 4 and 3 to receive from an empty one, any task's and its own, the others for a
 * semaphore. The clock is set by C, so that due times wrap. */
static void wait_all(void)
{
    record.state.clock = want.state.clock = 0xfffffff0u;
    for (int i = 15; i >= 0; i--) {
        uint32_t time = i % 2 ? CUNGKALISA_FOREVER : 0x01010101u * (uint32_t)(i + 1);
        int next = i == 0 ? CUNGKALISA_NONE : i - 1;
        if (i == 15) {
            answered(cungkalisa_sleep(&kernel, 0x7fffffffu), 1, 0, next, "sleep", i);
            waits(CUNGKALISA_ON_TIME, 0, 0x7fffffffu);
        } else if (i >= 7) {
            answered(cungkalisa_lock(&kernel, (uint32_t)i - 7, time), 1, 1, next, "lock", i);
            waits(CUNGKALISA_ON_MUTEX, (uint8_t)(i - 7), time);
        } else if (i >= 5) {
            send_and_wait(i, (uint8_t)(6 - i), time, (uint32_t)(6 - i));
        } else if (i >= 3) {
            answered(cungkalisa_receive(&kernel, (uint32_t)(6 - i), time), 1, 0, next, "receive", i);
            waits(CUNGKALISA_TO_RECEIVE, (uint8_t)(6 - i), time);
        } else {
            answered(cungkalisa_pend(&kernel, 7, time), 1, 0, next, "pend", i);
            waits(CUNGKALISA_ON_SEMAPHORE, 7, time);
        }
        same("wait", i);
    }
}

/* With nobody running: a tick, and each task's level, outcome and words. */
static void ask_all(void)
{
    answered(cungkalisa_tick(&kernel), 0, 0, 255, "tick", 0);
    want.state.clock++;
    same("tick", 0);
    for (uint32_t i = 0; i < 16; i++) {
        answered(cungkalisa_level(&kernel, i), 0, 31 - 2 * i, 255, "level", (int)i);
        answered(cungkalisa_outcome(&kernel, i), 0, CUNGKALISA_PENDING, 255, "outcome", (int)i);
        for (uint32_t n = 0; n < CUNGKALISA_WORDS; n++)
            answered(cungkalisa_word(&kernel, i, n), 0, want.words[8 * i + n], 255, "word", (int)(8 * i + n));
    }
    same("level, outcome and word", 0);
}

/* A value written by C into a field of the record where it can't stand: the library refuses the record, and leaves it as it is. */
static void damaged(void *at, const void *value, size_t size, const char *what, int which)
{
    cungkalisa good = record;
    memcpy(at, value, size);
    cungkalisa before = record;
    expect(!cungkalisa_is_sound(&record, BLOCK), what, which);
    answered(cungkalisa_tick(&kernel), CUNGKALISA_UNSOUND, 0, 255, what, which);
    answered(cungkalisa_step_on(&kernel, 21, 0, 0, 0), CUNGKALISA_NO_STEP, 0, 255, what, which);
    same_record(&record, &before, what, which);
    record = good;
    expect(cungkalisa_is_sound(&record, BLOCK), what, which);
}

#define DAMAGE(field, type, value, which)                                            \
    do {                                                                             \
        type wrong = (value);                                                        \
        damaged(&record.field, &wrong, sizeof wrong, "damaged " #field, which);      \
    } while (0)

/* Every field in turn, on the record in which all tasks wait. */
static void damage_all(void)
{
    const cungkalisa_state *s = &record.state;
    for (int i = 0; i < 16; i++) {
        DAMAGE(state.tasks.due[i], uint32_t, i % 2 && i < 15 ? 1 : s->clock, i);
        DAMAGE(state.tasks.priority[i], uint8_t, 32, i);
        DAMAGE(state.tasks.level[i], uint8_t, 0, i);
        DAMAGE(state.tasks.outcome[i], uint8_t, 0, i);
        DAMAGE(state.tasks.wait[i], uint8_t, 0, i);
        DAMAGE(state.tasks.object[i], uint8_t, 8, i);
        DAMAGE(state.tasks.timed[i], uint8_t, 2, i);
        DAMAGE(state.ready.ids[i], uint8_t, 0, i);
        DAMAGE(state.waiting.ids[i], uint8_t, 16, i);
    }
    for (int i = 0; i < 8; i++) {
        DAMAGE(state.mutexes.kind[i], uint8_t, 2, i);
        DAMAGE(state.mutexes.owner[i], uint8_t, 16, i);
        DAMAGE(state.semaphores.count[i], uint32_t, 0xffffffffu, i);
        DAMAGE(state.semaphores.maximum[i], uint32_t, 0, i);
        DAMAGE(state.queues.width[i], uint8_t, 3, i);
        DAMAGE(state.queues.depth[i], uint8_t, 65, i);
        DAMAGE(state.queues.owner[i], uint8_t, 16, i);
        DAMAGE(state.queues.oldest[i], uint8_t, depths[i], i);
        DAMAGE(state.queues.used[i], uint8_t, (uint8_t)(depths[i] + 1), i);
    }
    DAMAGE(state.tasks.n, uint8_t, 15, 0);
    DAMAGE(state.mutexes.n, uint8_t, 7, 0);
    DAMAGE(state.semaphores.n, uint8_t, 7, 0);
    DAMAGE(state.queues.n, uint8_t, 7, 0);
    DAMAGE(state.ready.n, uint8_t, 1, 0);
    DAMAGE(state.waiting.n, uint8_t, 15, 0);
    DAMAGE(state.clock, uint32_t, s->tasks.due[0], 0);
    DAMAGE(state.started, uint8_t, 2, 0);
    DAMAGE(state.hold, uint8_t, 1, 0);
    DAMAGE(state.running, uint8_t, 0, 0);
    /* What is past the message of a waiting sender. */
    for (int i = 5; i < 7; i++)
        for (int n = widths[6 - i]; n < CUNGKALISA_WORDS; n++)
            DAMAGE(words[CUNGKALISA_WORDS * i + n], uint32_t, 1, CUNGKALISA_WORDS * i + n);
}

/* A block that is too short for the queues, though by one word only. */
static void shorter_block(void)
{
    static const cungkalisa_kernel shorter = {&record, block, BLOCK - 1};
    expect(cungkalisa_is_sound(&record, BLOCK) && !cungkalisa_is_sound(&record, BLOCK - 1), "a shorter block", 0);
    answered(cungkalisa_tick(&shorter), CUNGKALISA_UNSOUND, 0, 255, "a shorter block", 0);
    same("a shorter block", 0);
}

/* A refusal leaves every byte as it is, those that no field has included. */
static void refused_bytes(void)
{
    static const uint32_t nine[9];
    unsigned char *bytes = (unsigned char *)&record;
    cungkalisa before;
    for (int mark = 0; mark < 256; mark += 85) {
        for (int at = 0; at < (int)sizeof record.state; at++)
            if (is_padding(at))
                bytes[at] = (unsigned char)mark;
        memcpy(&before, &record, sizeof before);
        answered(cungkalisa_step_on(&kernel, 99, 1, 2, 3), CUNGKALISA_NO_STEP, 0, 255, "no step", mark);
        answered(cungkalisa_send(&kernel, 0, 0, nine, 9), CUNGKALISA_NO_STEP, 0, 255, "a message of nine words", mark);
        answered(cungkalisa_yield(&kernel), CUNGKALISA_NO_CALLER, 0, 255, "no caller", mark);
        answered(cungkalisa_level(&kernel, 16), CUNGKALISA_NO_SUCH, 0, 255, "no such task", mark);
        expect(memcmp(&record, &before, sizeof record) == 0, "all bytes after a refusal", mark);
        record.state.hold = before.state.hold = 1;
        answered(cungkalisa_tick(&kernel), CUNGKALISA_UNSOUND, 0, 255, "unsound", mark);
        expect(memcmp(&record, &before, sizeof record) == 0, "all bytes of an unsound record", mark);
        record.state.hold = 0;
        expect(memcmp(block, want_block, sizeof block) == 0, "the block after a refusal", mark);
    }
}

/* What a step is given beside the record and the block. */
struct given {
    uint32_t code, a, b, c;
    uint64_t count;
};

/* The step by value gives what the step in place does, and leaves the caller's state alone. */
static void both_ways(const cungkalisa *start, const char *what, struct given g)
{
    static const uint32_t message[9] = {9, 8, 7, 6, 5, 4, 3, 2, 1};
    static uint32_t there[BLOCK], here[BLOCK];
    cungkalisa in_place = *start, kept = *start;
    memcpy(there, block, sizeof block);
    memcpy(here, block, sizeof block);
    uint64_t answer = cungkalisa_step(&in_place, g.code, g.a, g.b, g.c, message, g.count, there, BLOCK);
    cungkalisa_stepped stepped =
        cungkalisa_step_by_value(kept, g.code, g.a, g.b, g.c, message, g.count, here, BLOCK);
    expect(stepped.answer == answer, what, (int)g.code);
    same_record(&stepped.record, &in_place, what, (int)g.code);
    same_record(&kept, start, what, (int)g.code);
    expect(memcmp(there, here, sizeof here) == 0, what, (int)g.code);
}

/* Every code, one that is no step's included, with small and great numbers, and messages of 0 to 9 words, on the record as it
 * stands and on the same damaged. */
static void by_value(const char *what)
{
    static const uint32_t numbers[] = {0, 1, 5, 7, 16, 40, 0x7fffffffu, 0xffffffffu};
    cungkalisa broken = record;
    broken.state.started = 2;
    for (uint32_t code = 0; code < 22; code++)
        for (unsigned i = 0; i < 8; i++)
            for (unsigned j = 0; j < 8; j++) {
                struct given g = {code, numbers[i], numbers[j], numbers[(i + j) % 8], (3 * i + j) % 10};
                both_ways(&record, what, g);
                both_ways(&broken, what, g);
            }
}

int main(int count, char **words)
{
    table = count > 1 ? fopen(words[1], "w") : NULL;
    places();
    if (table)
        fclose(table);
    memset(&record, 0xa5, sizeof record);
    cungkalisa_fresh(&record);
    fresh_fields();
    same("fresh", 0);
    by_value("by value, fresh");
    make_tasks();
    make_mutexes_and_semaphores();
    make_queues();
    by_value("by value, all made");
    start_all();
    by_value("by value, started");
    hold_all();
    queue_all();
    by_value("by value, all mutexes taken, queues full");
    wait_all();
    ask_all();
    by_value("by value, all waiting");
    damage_all();
    shorter_block();
    refused_bytes();
    printf("layout: %d checks hold\n", checks);
    return 0;
}
