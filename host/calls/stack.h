/* How much stack a function writes: it runs in a thread whose stack is painted first, and the lowest byte that has changed is looked for. */
#ifndef STACK_H
#define STACK_H

#include <pthread.h>
#include <stdint.h>
#include <stdlib.h>
#include <string.h>

/* The painting leaves out SLACK bytes for its own call; what uses less counts as SLACK. */
enum { STACK = 1 << 20, SLACK = 512, PAINT = 0x5A };

static uint8_t *stack_bytes;
static size_t stack_depth;
static void (*stack_work)(void);

static void *run_painted(void *unused)
{
    uint8_t here;
    size_t top = (uintptr_t)&here - (uintptr_t)stack_bytes, low = 0;
    memset(stack_bytes, PAINT, top - SLACK);
    stack_work();
    while (low < top - SLACK && stack_bytes[low] == PAINT) low++;
    stack_depth = top - low;
    return unused;
}

/* The bytes of stack that `work` takes below its caller. */
static size_t stack_used(void (*work)(void))
{
    pthread_attr_t attr;
    pthread_t thread;
    if (posix_memalign((void **)&stack_bytes, 4096, STACK) != 0) exit(1);
    stack_work = work;
    pthread_attr_init(&attr);
    if (pthread_attr_setstack(&attr, stack_bytes, STACK) != 0) exit(1);
    if (pthread_create(&thread, &attr, run_painted, NULL) != 0) exit(1);
    pthread_join(thread, NULL);
    pthread_attr_destroy(&attr);
    free(stack_bytes);
    return stack_depth;
}

#endif
