/* How long a stage of plain threads lasts, each with the same work, by how they are started.
 *
 * cc -O1 -o starting bench/starting.c -lpthread && ./starting
 *
 * Each thread adds up numbers for about 2 ms. Prints the mean milliseconds of 200 stages for 2 and for 4 threads. On a machine
 * with as many free processors the work alone would take 2 ms.
 */
#include <pthread.h>
#include <stdio.h>
#include <time.h>

enum { STAGES = 200, MOST = 4, ADDITIONS = 1200000 };

static int threads;

static double now(void)
{
    struct timespec t;
    clock_gettime(CLOCK_MONOTONIC, &t);
    return t.tv_sec * 1e3 + t.tv_nsec * 1e-6;
}

static void *work(void *unused)
{
    volatile long sum = 0;
    for (long i = 0; i < ADDITIONS; i++)
        sum += i;
    return unused;
}

/* The caller starts the threads from `first` on, works itself if it is one of them, and waits. */
static void start_all(int first)
{
    pthread_t others[MOST];
    for (int i = first; i < threads; i++)
        pthread_create(&others[i], NULL, work, NULL);
    if (first > 0)
        work(NULL);
    for (int i = first; i < threads; i++)
        pthread_join(others[i], NULL);
}

/* Each thread starts the next one, and then works. */
static void *start_next(void *index)
{
    pthread_t next;
    long i = (long)index;
    int has_next = i + 1 < threads;
    if (has_next)
        pthread_create(&next, NULL, start_next, (void *)(i + 1));
    work(NULL);
    if (has_next)
        pthread_join(next, NULL);
    return NULL;
}

static void caller_works(void) { start_all(1); }
static void caller_waits(void) { start_all(0); }
static void in_a_chain(void) { start_next((void *)0); }

static void measure(const char *name, void (*stage)(void))
{
    printf("%-50s", name);
    for (threads = 2; threads <= MOST; threads += 2) {
        double begin = now();
        for (int i = 0; i < STAGES; i++)
            stage();
        printf(" %d threads %.1f ms", threads, (now() - begin) / STAGES);
    }
    printf("\n");
}

int main(void)
{
    measure("the caller starts all but one, and works itself", caller_works);
    measure("each thread starts the next one, and then works", in_a_chain);
    measure("the caller starts all, and only waits", caller_waits);
    return 0;
}
