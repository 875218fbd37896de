/*
 * A stack of 2,048 bytes, as a task of the rig's small host has (document 02,
 * T-02), right above memory that may not be touched: whatever needs more faults,
 * and the fault ends the program with a message.
 */
#ifndef SMALL_STACK_H
#define SMALL_STACK_H

#include <stddef.h>
#include <stdint.h>

/* What can be called on it. */
typedef uint32_t small(const void *argument);

/* Makes the stack and tests it; gives back what is wrong with it, or NULL. */
const char *make_small_stack(void);

/*
 * Calls a function on it. `used` becomes the number of bytes, from the top of the
 * stack to the lowest one that was written, and `name` is for the message.
 */
uint32_t call_on_small_stack(const char *name, small *function, const void *argument,
                             size_t *used);

#endif
