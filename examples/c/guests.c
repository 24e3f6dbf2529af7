/* Two guest processes, as an emulator would run them: a named event, a handle that is inherited, a wait that is pending and is
 * answered, and a mutex that its owner abandons. */
#include <obman.h>
#include <stdio.h>
#include <stdlib.h>
#include <string.h>

/* What the guests are expected to see, and what they saw. */
static void see(const char *what, uint32_t answer, uint32_t due) {
    printf("%s: %u\n", what, (unsigned)answer);
    if (answer != due) {
        fprintf(stderr, "guests: %u was due\n", (unsigned)due);
        exit(1);
    }
}

int main(void) {
    om_limits limits = OM_LIMITS_DEFAULT;
    om_making named = om_both(om_named(), om_inherited());
    om_making unnamed = om_inherited();
    const char *ready = "Local\\ready";
    om_manager m;
    om_member parent, child;
    om_opening event, mutex, again;
    uint32_t wait, code, handles[2];

    see("new manager", om_new(&limits, &m), OM_SUCCESS);
    see("parent begins", om_spawn(&m, 1, &parent), OM_SUCCESS);
    see("CreateEvent", om_create_event(&m, parent.thread, &named, ready, strlen(ready), false, false, &event), OM_SUCCESS);
    see("CreateMutex", om_create_mutex(&m, parent.thread, &unnamed, "", 0, false, &mutex), OM_SUCCESS);

    /* The child has both handles at the same values, and finds the event by its name too. */
    see("child begins", om_child(&m, parent.thread, true, &child), OM_SUCCESS);
    see("CreateEvent in the child", om_create_event(&m, child.thread, &named, "ready", 5, false, false, &again), OM_ERROR_ALREADY_EXISTS);
    see("the same slot", again.object.slot, event.object.slot);

    /* The child owns the mutex, and the parent waits for mutex and event. */
    see("child takes the mutex", om_wait(&m, child.thread, false, 0, &mutex.handle, 1, &code), OM_SUCCESS);
    handles[0] = mutex.handle;
    handles[1] = event.handle;
    see("parent waits", om_wait(&m, parent.thread, true, OM_INFINITE, handles, 2, &wait), OM_ERROR_IO_PENDING);
    see("its other calls", om_close(&m, parent.thread, event.handle), OM_ERROR_BUSY);
    see("child sets the event", om_set_event(&m, child.thread, again.handle), OM_SUCCESS);
    see("the wait is pending", om_is_pending(&m, wait), true);

    /* The child ends and never released the mutex: the wait is satisfied by an abandoned one. */
    see("child ends", om_exit(&m, child.process), OM_SUCCESS);
    see("the wait's answer", om_wait_result(&m, wait, &code), OM_SUCCESS);
    see("its code", code, OM_WAIT_ABANDONED_0);
    see("parent releases the mutex", om_release_mutex(&m, parent.thread, mutex.handle), OM_SUCCESS);
    see("parent ends", om_exit(&m, parent.process), OM_SUCCESS);
    om_free(m);
    return 0;
}
