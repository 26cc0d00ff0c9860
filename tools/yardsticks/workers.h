// Worker threads with one consumer, for the yardsticks of whole jobs.
#include <pthread.h>
#include <stdatomic.h>
#include <stdint.h>

static _Atomic uint64_t refused;
static _Atomic int ended;

// Runs all jobs. A worker receives its number, and the consumer ends when it finds nothing after `ended`.
static void all_jobs(int workers, void *(*work)(void *), void *(*consume)(void *)) {
    pthread_t made[64], consumer;
    atomic_store(&refused, 0);
    atomic_store(&ended, 0);
    pthread_create(&consumer, 0, consume, 0);
    for (long i = 0; i < workers; i++) pthread_create(&made[i], 0, work, (void *)i);
    for (int i = 0; i < workers; i++) pthread_join(made[i], 0);
    atomic_store(&ended, 1);
    pthread_join(consumer, 0);
}
