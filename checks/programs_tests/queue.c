/* POSIX threads by winpthreads: producers and consumers with a condition variable, a barrier, keys with destructors, once, cancellation. */
#include <pthread.h>
#include <stdio.h>

enum { ROOM = 8, ITEMS = 400, CONSUMERS = 4 };

static pthread_mutex_t lock = PTHREAD_MUTEX_INITIALIZER;
static pthread_cond_t changed = PTHREAD_COND_INITIALIZER;
static pthread_once_t once = PTHREAD_ONCE_INIT;
static pthread_barrier_t barrier;
static pthread_key_t key;
static int items[ROOM], count, is_over, destroyed;
static long sum;

static void destroy(void *value) {
    pthread_mutex_lock(&lock);
    destroyed += value == &sum;
    pthread_mutex_unlock(&lock);
}

static void make_key(void) {
    puts("once");
    pthread_key_create(&key, destroy);
}

static void *consume(void *unused) {
    pthread_once(&once, make_key);
    pthread_setspecific(key, &sum);
    pthread_barrier_wait(&barrier);
    pthread_mutex_lock(&lock);
    while (count > 0 || !is_over) {
        if (count == 0) {
            pthread_cond_wait(&changed, &lock);
        } else {
            sum += items[--count];
            pthread_cond_broadcast(&changed);
        }
    }
    pthread_mutex_unlock(&lock);
    return unused;
}

static void unlock(void *it) {
    pthread_mutex_unlock(it);
}

static void *wait_for_good(void *unused) {
    pthread_mutex_lock(&lock);
    pthread_cleanup_push(unlock, &lock);
    for (;;) {
        pthread_cond_wait(&changed, &lock);
    }
    pthread_cleanup_pop(1);
    return unused;
}

int main(void) {
    pthread_t all[CONSUMERS], other;
    void *result;
    pthread_barrier_init(&barrier, NULL, CONSUMERS + 1);
    for (int i = 0; i < CONSUMERS; i++) {
        pthread_create(&all[i], NULL, consume, NULL);
    }
    pthread_barrier_wait(&barrier);
    for (int i = 1; i <= ITEMS; i++) {
        pthread_mutex_lock(&lock);
        while (count == ROOM) {
            pthread_cond_wait(&changed, &lock);
        }
        items[count++] = i;
        pthread_cond_broadcast(&changed);
        pthread_mutex_unlock(&lock);
    }
    pthread_mutex_lock(&lock);
    is_over = 1;
    pthread_cond_broadcast(&changed);
    pthread_mutex_unlock(&lock);
    for (int i = 0; i < CONSUMERS; i++) {
        pthread_join(all[i], NULL);
    }
    printf("sum %ld, %d values destroyed\n", sum, destroyed);
    pthread_create(&other, NULL, wait_for_good, NULL);
    pthread_cancel(other);
    pthread_join(other, &result);
    printf("cancelled %d, the lock is free %d\n", result == PTHREAD_CANCELED, pthread_mutex_trylock(&lock) == 0);
    return 0;
}
