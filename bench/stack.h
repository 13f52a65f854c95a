/* A step's stack: made on a painted one, to see how deep it goes, or with the stack at another place. */
#ifndef STACK_H
#define STACK_H

#include <stddef.h>
#include <stdint.h>

/* A step in place, as the proved library's function takes it, and the lean kernel's. */
typedef uint64_t step_function(void *state, uint32_t code, uint32_t a, uint32_t b, uint32_t c, const uint32_t *message,
                               uint64_t count, uint32_t *block, uint64_t block_words);

/* A step to be made, with all that it is given. */
struct stack_call {
    step_function *step;
    void *state;
    uint32_t code, a, b, c;
    const uint32_t *message;
    uint64_t count;
    uint32_t *block;
    uint64_t block_words;
};

/* Takes what a step takes, and does nothing: what it needs is what every call needs. */
step_function stack_no_step;

/* Makes the step on a stack painted with the pattern, and gives the bytes from its caller's frame down to the deepest byte
 * that changed. A byte that was given the pattern's very value isn't seen: so use two patterns. A step that needs more than
 * there is ends the program. */
size_t stack_of_step(const struct stack_call *made, uint8_t pattern);

/* Does the work with the stack so many bytes lower. */
void stack_lower(size_t bytes, void (*work)(void *), void *data);

#endif
