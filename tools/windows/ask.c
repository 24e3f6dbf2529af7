#include "ask.h"

bool is_answered(const seat *by, const process *in, DWORD time) {
    HANDLE either[2];

    either[0] = by->done;
    either[1] = in->real;
    switch (WaitForMultipleObjects(2, either, FALSE, time)) {
    case WAIT_OBJECT_0: return true;
    case WAIT_TIMEOUT: return false;
    default: stop("a worker has ended"); return false;
    }
}

static desk *ask(const seat *whom, const process *in) {
    whom->at->pending = false;
    SetEvent(whom->go);
    if (!is_answered(whom, in, GRACE))
        stop("a worker doesn't answer");
    return whom->at;
}

desk *ask_clerk(process *of, enum verb verb, uint32_t number, HANDLE real) {
    desk *at = of->clerk.at;

    at->asked.verb = verb;
    at->asked.thread = number;
    at->real[0] = real;
    return ask(&of->clerk, of);
}

desk *ask_thread(thread *of, const line *call) {
    desk *at = of->seat.at;
    uint32_t place;

    at->asked = *call;
    at->asked.count = call->count < WAITED ? call->count : WAITED;
    for (place = 0; call->verb != VERB_DUP && place < at->asked.count; place++)
        at->real[place] = real_of(home_of(of), call->handles[place]);
    return ask(&of->seat, home_of(of));
}

bool is_handle(process *of, HANDLE real) { return of->is_live && ask_clerk(of, VERB_FLAGS, 0, real)->error == 0; }

bool is_over(thread *of, DWORD time) {
    if (of->is_pending && is_answered(&of->seat, home_of(of), time))
        of->is_pending = false;
    return !of->is_pending;
}

void look_at_waits(DWORD time) {
    uint32_t at;

    for (at = 0; at < all.threads_given; at++)
        is_over(&all.threads[at], time);
}

bool expire(thread *of) {
    ask_clerk(home_of(of), VERB_EXPIRE, (uint32_t)(of - all.threads) + 1, NULL);
    if (!is_over(of, GRACE))
        stop("a wait doesn't expire");
    return of->seat.at->error == 0 && of->seat.at->value == WAIT_TIMEOUT;
}
