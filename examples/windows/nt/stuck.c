/* Who waits for whom, where no thread can go on. */
#include "nt.h"

#include <stdio.h>

/* A thread of an object of the host's that stands for one, else 0. */
static uint32_t thread_at(const om_object *object, uint32_t kind) {
    kept *k = kept_at(om_object_data(&om, object->slot, object->generation));
    return kind == OM_HOST(A_THREAD) && k != NULL ? k->number : 0;
}

static void tell_object(const om_object *object) {
    static const char *const kinds[] = {"event", "mutex", "semaphore", "timer"};
    char name[OM_NAME_MOST];
    om_object_state state;
    om_row row = {0};
    if (om_state(&om, object->slot, object->generation, &state) != OM_SUCCESS) {
        return;
    }
    om_name_of(&om, object->slot, object->generation, name, sizeof name, &row);
    const char *own = state.kind == OM_HOST(A_THREAD) ? "thread" : state.kind == OM_HOST(A_PROCESS) ? "process" : "object";
    fprintf(stderr, " %s s%u.%u", state.kind < OM_ENDED ? kinds[state.kind] : own, object->slot, object->generation);
    if (row.length > 0) {
        fprintf(stderr, " \"%.*s\"", (int)row.length, name);
    }
    uint32_t who = state.owner != 0 ? state.owner : thread_at(object, state.kind);
    if (who != 0) {
        fprintf(stderr, state.owner != 0 ? " of thread %u" : " (thread %u)", who);
    }
}

static void tell_wait(const thread *t) {
    om_object objects[OM_MAXIMUM_WAIT_OBJECTS];
    om_pending pending = {0};
    size_t count = 0;
    fprintf(stderr, "nt: thread %u of process %u", t->number, t->of->member.process);
    if (t->waits == RUNS) {
        fprintf(stderr, t->suspended > 0 ? " is suspended" : " runs at %llx", (unsigned long long)t->now.whole[RIP]);
    } else if (t->waits == FOR_OBJECTS) {
        om_objects_waited_for(&om, om_wait_of(&om, t->number), &pending, objects, OM_MAXIMUM_WAIT_OBJECTS, &count);
        fprintf(stderr, " waits for %s of:", pending.all ? "all" : "any");
        for (size_t i = 0; i < count; i++) {
            tell_object(&objects[i]);
        }
    } else if (t->waits == FOR_TIME) {
        fputs(" sleeps", stderr);
    } else if (t->waits == FOR_PACKET || t->waits == FOR_PACKETS) {
        fputs(" waits for a packet of a completion port", stderr);
    } else if (t->waits == FOR_IO) {
        fputs(" waits for the other end of a pipe", stderr);
    } else {
        /* what is below a critical section, a slim lock or a condition variable, by their address */
        fprintf(stderr, " waits to be woken at %llx", (unsigned long long)t->key);
    }
    fprintf(stderr, "%s\n", t->waits != RUNS && t->suspended > 0 ? ", and is suspended" : "");
}

/* A line for each thread. */
void tell_waits(void) {
    for (const thread *t = threads; t < threads + threads_end; t++) {
        if (t->number != 0) {
            tell_wait(t);
        }
    }
}
