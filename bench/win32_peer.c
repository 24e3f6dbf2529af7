/* Events, mutexes and semaphores for the threads of one process by the locks and condition variables of POSIX alone: a handle is a pointer, and what
 * bench/win32.c doesn't call isn't here. A wait for any of several stands in a list of each of its objects. */
#include <errno.h>
#include <pthread.h>
#include <stdbool.h>
#include <stdlib.h>
#include <time.h>
#include <windows.h>

/* A thread that waits for any of several objects. */
typedef struct waiter {
    pthread_mutex_t lock;
    pthread_cond_t woken;
    bool is_woken;
} waiter;

typedef struct place {
    struct place *next, **at;
    waiter *of;
} place;

typedef enum kind { EVENT, MUTEX, SEMAPHORE } kind;

typedef struct object {
    pthread_mutex_t lock;
    pthread_cond_t changed;
    int sleepers; /* for this object alone */
    place *places;
    kind kind;
    bool manual, set;  /* of an event */
    LONG count, most;  /* of a semaphore; of a mutex how often it is owned */
    const void *owner; /* of a mutex */
} object;

static _Thread_local DWORD last_error;
static _Thread_local char me; /* its address is the thread */

static BOOL refused(object *o, DWORD error) {
    pthread_mutex_unlock(&o->lock);
    last_error = error;
    return FALSE;
}

static void begin_condition(pthread_cond_t *c) {
    pthread_condattr_t monotonic;
    pthread_condattr_init(&monotonic);
    pthread_condattr_setclock(&monotonic, CLOCK_MONOTONIC);
    pthread_cond_init(c, &monotonic);
    pthread_condattr_destroy(&monotonic);
}

static HANDLE made(object o) {
    object *at = malloc(sizeof *at);
    if (at != NULL) {
        *at = o;
        pthread_mutex_init(&at->lock, NULL);
        begin_condition(&at->changed);
    }
    return at;
}

/* Under the object's lock: takes it where it is signaled. */
static bool has_taken(object *o) {
    switch (o->kind) {
    case EVENT:
        if (!o->set) {
            return false;
        }
        o->set = o->manual;
        return true;
    case MUTEX:
        if (o->count > 0 && o->owner != &me) {
            return false;
        }
        o->owner = &me;
        o->count++;
        return true;
    default: return o->count > 0 && o->count-- > 0;
    }
}

static void wake(waiter *w) {
    pthread_mutex_lock(&w->lock);
    w->is_woken = true;
    pthread_cond_signal(&w->woken);
    pthread_mutex_unlock(&w->lock);
}

/* Has the lock, which it gives back: wakes who may go on now. Whoever closes a handle knows that no call has it. */
static BOOL signaled(object *o, bool wakes_all) {
    for (place *p = o->places; p != NULL; p = p->next) {
        wake(p->of);
    }
    int sleepers = o->sleepers;
    pthread_mutex_unlock(&o->lock);
    if (sleepers > 0 && wakes_all) {
        pthread_cond_broadcast(&o->changed);
    } else if (sleepers > 0) {
        pthread_cond_signal(&o->changed);
    }
    return TRUE;
}

HANDLE WINAPI CreateEventA(LPSECURITY_ATTRIBUTES attributes, BOOL manual, BOOL set, LPCSTR name) {
    (void)attributes, (void)name;
    return made((object){.kind = EVENT, .manual = manual, .set = set});
}

HANDLE WINAPI CreateMutexA(LPSECURITY_ATTRIBUTES attributes, BOOL owned, LPCSTR name) {
    (void)attributes, (void)name;
    return made((object){.kind = MUTEX, .count = owned, .owner = owned ? &me : NULL});
}

HANDLE WINAPI CreateSemaphoreA(LPSECURITY_ATTRIBUTES attributes, LONG initial, LONG most, LPCSTR name) {
    (void)attributes, (void)name;
    return made((object){.kind = SEMAPHORE, .count = initial, .most = most});
}

BOOL WINAPI SetEvent(HANDLE event) {
    object *o = event;
    pthread_mutex_lock(&o->lock);
    if (o->kind != EVENT) {
        return refused(o, ERROR_INVALID_HANDLE);
    }
    o->set = true;
    return signaled(o, o->manual);
}

BOOL WINAPI ReleaseMutex(HANDLE mutex) {
    object *o = mutex;
    pthread_mutex_lock(&o->lock);
    if (o->kind != MUTEX || o->owner != &me || o->count == 0) {
        return refused(o, o->kind != MUTEX ? ERROR_INVALID_HANDLE : ERROR_NOT_OWNER);
    }
    if (--o->count > 0) {
        pthread_mutex_unlock(&o->lock);
        return TRUE;
    }
    o->owner = NULL;
    return signaled(o, false);
}

BOOL WINAPI ReleaseSemaphore(HANDLE semaphore, LONG count, LPLONG previous) {
    object *o = semaphore;
    pthread_mutex_lock(&o->lock);
    if (o->kind != SEMAPHORE || count <= 0 || count > o->most - o->count) {
        return refused(o, o->kind != SEMAPHORE ? ERROR_INVALID_HANDLE : count <= 0 ? ERROR_INVALID_PARAMETER : ERROR_TOO_MANY_POSTS);
    }
    if (previous != NULL) {
        *previous = o->count;
    }
    o->count += count;
    return signaled(o, count > 1);
}

static struct timespec moment_in(DWORD milliseconds) {
    struct timespec t;
    clock_gettime(CLOCK_MONOTONIC, &t);
    long nanoseconds = t.tv_nsec + (long)(milliseconds % 1000) * 1000000;
    return (struct timespec){t.tv_sec + milliseconds / 1000 + nanoseconds / 1000000000, nanoseconds % 1000000000};
}

/* Sleeps until it is woken, or until a moment where there is one. */
static bool has_slept(pthread_cond_t *c, pthread_mutex_t *lock, const struct timespec *until) {
    return (until == NULL ? pthread_cond_wait(c, lock) : pthread_cond_timedwait(c, lock, until)) != ETIMEDOUT;
}

DWORD WINAPI WaitForSingleObject(HANDLE handle, DWORD milliseconds) {
    object *o = handle;
    struct timespec moment, *until = milliseconds == INFINITE ? NULL : &moment;
    pthread_mutex_lock(&o->lock);
    bool is_taken = has_taken(o);
    if (!is_taken && milliseconds != 0) {
        bool has_time = true;
        moment = moment_in(milliseconds);
        o->sleepers++;
        while (!is_taken && has_time) {
            has_time = has_slept(&o->changed, &o->lock, until);
            is_taken = has_taken(o);
        }
        o->sleepers--;
    }
    pthread_mutex_unlock(&o->lock);
    return is_taken ? WAIT_OBJECT_0 : WAIT_TIMEOUT;
}

/* Leaves the list of each object, and takes the first that is signaled, where none was taken. */
static DWORD unlisted(const HANDLE *handles, DWORD count, place *places, DWORD taken) {
    for (DWORD i = 0; i < count; i++) {
        object *o = handles[i];
        pthread_mutex_lock(&o->lock);
        if ((*places[i].at = places[i].next) != NULL) {
            places[i].next->at = places[i].at;
        }
        if (taken == WAIT_TIMEOUT && has_taken(o)) {
            taken = WAIT_OBJECT_0 + i;
        }
        pthread_mutex_unlock(&o->lock);
    }
    return taken;
}

/* Takes the first object that is signaled, or stands in the list of each, where it is to wait. */
static DWORD first_taken(const HANDLE *handles, DWORD count, waiter *w, place *places) {
    for (DWORD i = 0; i < count; i++) {
        object *o = handles[i];
        pthread_mutex_lock(&o->lock);
        bool is_taken = has_taken(o);
        if (!is_taken && w != NULL) {
            places[i] = (place){o->places, &o->places, w};
            if (o->places != NULL) {
                o->places->at = &places[i].next;
            }
            o->places = &places[i];
        }
        pthread_mutex_unlock(&o->lock);
        if (is_taken) {
            return w == NULL ? WAIT_OBJECT_0 + i : unlisted(handles, i, places, WAIT_OBJECT_0 + i);
        }
    }
    return WAIT_TIMEOUT;
}

/* For any of them. */
DWORD WINAPI WaitForMultipleObjects(DWORD count, const HANDLE *handles, BOOL all, DWORD milliseconds) {
    struct timespec moment, *until = milliseconds == INFINITE ? NULL : &moment;
    waiter w = {.lock = PTHREAD_MUTEX_INITIALIZER};
    place places[MAXIMUM_WAIT_OBJECTS];
    bool has_time = milliseconds != 0;
    DWORD taken = all ? WAIT_FAILED : first_taken(handles, count, NULL, NULL);
    if (taken != WAIT_TIMEOUT || !has_time) {
        return taken;
    }
    begin_condition(&w.woken);
    moment = moment_in(milliseconds);
    while (taken == WAIT_TIMEOUT && has_time) {
        taken = first_taken(handles, count, &w, places);
        if (taken == WAIT_TIMEOUT) {
            pthread_mutex_lock(&w.lock);
            while (!w.is_woken && has_time) {
                has_time = has_slept(&w.woken, &w.lock, until);
            }
            w.is_woken = false;
            pthread_mutex_unlock(&w.lock);
            taken = unlisted(handles, count, places, taken);
        }
    }
    pthread_cond_destroy(&w.woken);
    return taken;
}
