/* The lines of a script (docs/FORMATS.md), taken apart. */
#ifndef SCRIPT_H
#define SCRIPT_H

#include <stdbool.h>
#include <stddef.h>
#include <stdint.h>

#define MOST_BYTES 4096
#define MOST_HANDLES (MOST_BYTES / 3)

enum verb {
    VERB_SPAWN,
    VERB_CHILD,
    VERB_THREAD,
    VERB_CREATE,
    VERB_OPEN,
    VERB_DUP,
    VERB_CLOSE,
    VERB_FLAGS,
    VERB_SETFLAGS,
    VERB_SET,
    VERB_RESET,
    VERB_RELEASE,
    VERB_UNLOCK,
    VERB_SETTIMER,
    VERB_CANCEL,
    VERB_TICK,
    VERB_WAIT,
    VERB_RESULT,
    VERB_EXPIRE,
    VERB_ENDTHREAD,
    VERB_EXIT,
    VERB_COUNT,
    VERB_REAP,
    VERB_SIGNAL,
    VERB_PULSE,
    VERB_SIGNALWAIT,
    VERB_SLEEP,
    VERB_ALERT,
    VERB_DIR,
    VERB_PIN,
    VERB_UNPIN,
    VERB_CARD
};

enum kind { KIND_EVENT, KIND_MUTEX, KIND_SEMAPHORE, KIND_TIMER };

typedef struct {
    enum verb verb;
    enum kind kind;
    uint32_t thread, process, wait, slot, generation;
    uint32_t session;
    uint32_t type; /* of a host's object, which is played by an event */
    bool is_host; /* that such an object is made */
    bool inherit; /* the option, and that a child inherits */
    bool manual; /* a manual reset */
    bool initial; /* set or owned from the first */
    int32_t integers[2]; /* a semaphore's counts; behind a nought a release's, or a timer's period */
    bool has_access, has_grant, has_name;
    uint32_t access, grant;
    char name[MOST_BYTES + 1];
    bool has_target, same, close_source;
    uint32_t source, target; /* the processes of a duplicate */
    uint32_t mask, flags;
    int64_t moment; /* of a tick; of a timer or the end of a wait, below 0 from now */
    bool all;
    bool has_moment; /* in the place of a timeout */
    uint32_t timeout;
    uint32_t count; /* of handles */
    uint32_t handles[MOST_HANDLES];
} line;

/* What a line is: a call, which is taken apart; nothing; or bad. */
enum form { FORM_CALL, FORM_NOTHING, FORM_BAD };

/* The form of a line, without its line feed and the carriage return before that. */
enum form read_line(const char *text, size_t length, line *read);

#endif
