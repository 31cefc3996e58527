/* What the system knows of a call: its processor time, and the stack that it needs. */
#include <pthread.h>
#include <stddef.h>
#include <stdint.h>
#include <time.h>

/* Processor time of the calling thread in nanoseconds, or 0 if it cannot be had. */
uint64_t thread_time(void)
{
    struct timespec time;
    if (clock_gettime(CLOCK_THREAD_CPUTIME_ID, &time) != 0) return 0;
    return (uint64_t)time.tv_sec * 1000000000 + (uint64_t)time.tv_nsec;
}

/* The frame of the measuring function itself is not painted: less than OWN_FRAME cannot be seen. */
enum { SIZE = 4 << 20, OWN_FRAME = 256, PAINT = 0xA5 };

static uint8_t stack[SIZE] __attribute__((aligned(4096)));

struct measured {
    void (*work)(void *);
    void *argument;
    size_t used;
};

/* Paints the stack below this frame, does the work, and looks how far down the paint is gone. */
static void *measure(void *given)
{
    struct measured *measured = given;
    volatile uint8_t *top = __builtin_frame_address(0);
    volatile uint8_t *painted = top - OWN_FRAME;
    for (volatile uint8_t *place = stack; place < painted; place++) *place = PAINT;
    measured->work(measured->argument);
    volatile uint8_t *lowest = stack;
    while (lowest < painted && *lowest == PAINT) lowest++;
    measured->used = (size_t)(top - lowest);
    return NULL;
}

/* The bytes of stack that the work used on a thread of its own, or 0 if there was no thread. */
size_t stack_used(void (*work)(void *), void *argument)
{
    pthread_attr_t attributes;
    pthread_t thread;
    struct measured measured = {work, argument, 0};
    if (pthread_attr_init(&attributes) != 0 || pthread_attr_setstack(&attributes, stack, SIZE) != 0) return 0;
    if (pthread_create(&thread, &attributes, measure, &measured) != 0) return 0;
    if (pthread_join(thread, NULL) != 0) return 0;
    return measured.used;
}

/* The planning function of the library that is measured as the one before, where there is one. */
#ifdef BEFORE
extern void before_plan_routes(void);

void (*plan_before(void))(void)
{
    return before_plan_routes;
}
#else
void (*plan_before(void))(void)
{
    return NULL;
}
#endif
