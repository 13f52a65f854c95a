/* Steps on a painted stack: the contexts of POSIX change to it and back. */
#define _XOPEN_SOURCE 700
#include "stack.h"

#include <stdlib.h>
#include <string.h>
#include <ucontext.h>

static uint8_t painted[65536];
static ucontext_t here;

/* The call that is made on the painted stack, its answer, and where its caller's frame stood. */
static struct stack_call call;
static uint64_t answer;
static uint8_t *frame;

/* The answer is kept so that this frame is still there while the step is made. */
static void make_call(void)
{
    frame = __builtin_frame_address(0);
    answer = call.step(call.state, call.code, call.a, call.b, call.c, call.message, call.count, call.block, call.block_words);
}

uint64_t stack_no_step(void *state, uint32_t code, uint32_t a, uint32_t b, uint32_t c, const uint32_t *message, uint64_t count,
                       uint32_t *block, uint64_t block_words)
{
    (void)state, (void)code, (void)a, (void)b, (void)c, (void)message, (void)count, (void)block, (void)block_words;
    return 0;
}

size_t stack_of_step(const struct stack_call *made, uint8_t pattern)
{
    ucontext_t there;
    size_t at = 0;
    call = *made;
    memset(painted, pattern, sizeof painted);
    if (getcontext(&there) != 0)
        abort();
    there.uc_stack.ss_sp = painted;
    there.uc_stack.ss_size = sizeof painted;
    there.uc_link = &here;
    makecontext(&there, make_call, 0);
    if (swapcontext(&here, &there) != 0)
        abort();
    while (painted[at] == pattern)
        at++;
    if (at == 0)
        abort();
    return (size_t)(frame - (painted + at));
}

void stack_lower(size_t bytes, void (*work)(void *), void *data)
{
    volatile uint8_t between[bytes + 1];
    between[bytes] = 0;
    work(data);
    /* Read once more, so that it stands there till the work is done. */
    (void)between[bytes];
}
