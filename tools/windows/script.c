/* The grammar of docs/FORMATS.md. A verb has a form, in which each letter stands for words of the line. */
#include "script.h"

#include <string.h>

/* What is left of a line. Behind a space there has to be more. */
typedef struct {
    const char *at, *end;
    bool more;
} rest;

/* The letters: t, p, w a thread, a process and a wait; s and S a slot and an Id; h and H one handle and any number;
   n, g, f a session, the mask of flags and the flags; i a count; V and D a moment and a due time; M rights; a, e, o, c
   the words for a reset, for an event's and a mutex's first state, and for what a child inherits; k a kind, or y,
   the type of a host's object; O the options of a create; N those of an open; X what a duplicate has behind its thread;
   L how long a wait lasts, W its mode before that. */
static const struct {
    const char *word;
    enum verb verb;
    enum kind kind;
    const char *form;
} verbs[] = {
    {"spawn", VERB_SPAWN, KIND_EVENT, "n"},
    {"child", VERB_CHILD, KIND_EVENT, "tc"},
    {"thread", VERB_THREAD, KIND_EVENT, "p"},
    {"event", VERB_CREATE, KIND_EVENT, "taeO"},
    {"mutex", VERB_CREATE, KIND_MUTEX, "toO"},
    {"semaphore", VERB_CREATE, KIND_SEMAPHORE, "tiiO"},
    {"timer", VERB_CREATE, KIND_TIMER, "taO"},
    {"host", VERB_CREATE, KIND_EVENT, "tyaeO"},
    {"open", VERB_OPEN, KIND_EVENT, "tkMN"},
    {"dup", VERB_DUP, KIND_EVENT, "tX"},
    {"close", VERB_CLOSE, KIND_EVENT, "th"},
    {"flags", VERB_FLAGS, KIND_EVENT, "th"},
    {"setflags", VERB_SETFLAGS, KIND_EVENT, "thgf"},
    {"set", VERB_SET, KIND_EVENT, "th"},
    {"reset", VERB_RESET, KIND_EVENT, "th"},
    {"pulse", VERB_PULSE, KIND_EVENT, "th"},
    {"release", VERB_RELEASE, KIND_EVENT, "thi"},
    {"unlock", VERB_UNLOCK, KIND_EVENT, "th"},
    {"signal", VERB_SIGNAL, KIND_EVENT, "Se"},
    {"settimer", VERB_SETTIMER, KIND_EVENT, "thD"},
    {"setperiod", VERB_SETTIMER, KIND_EVENT, "thDi"},
    {"cancel", VERB_CANCEL, KIND_EVENT, "th"},
    {"tick", VERB_TICK, KIND_EVENT, "V"},
    {"wait", VERB_WAIT, KIND_EVENT, "tWH"},
    {"signalwait", VERB_SIGNALWAIT, KIND_EVENT, "thLh"},
    {"sleep", VERB_SLEEP, KIND_EVENT, "tL"},
    {"result", VERB_RESULT, KIND_EVENT, "w"},
    {"expire", VERB_EXPIRE, KIND_EVENT, "w"},
    {"alert", VERB_ALERT, KIND_EVENT, "w"},
    {"endthread", VERB_ENDTHREAD, KIND_EVENT, "t"},
    {"exit", VERB_EXIT, KIND_EVENT, "p"},
    {"count", VERB_COUNT, KIND_EVENT, "S"},
    {"reap", VERB_REAP, KIND_EVENT, "s"},
    {"dir", VERB_DIR, KIND_EVENT, ""},
    {"pin", VERB_PIN, KIND_EVENT, "S"},
    {"unpin", VERB_UNPIN, KIND_EVENT, "S"},
    {"card", VERB_CARD, KIND_EVENT, "S"},
};

/* Steps behind a word that ends here. */
static bool step(rest *of, const char *to) {
    if (to < of->end && *to != ' ')
        return false;
    of->more = to < of->end;
    of->at = of->more ? to + 1 : to;
    return true;
}

static bool take(rest *of, const char *word) {
    size_t length = strlen(word);

    if (!of->more || (size_t)(of->end - of->at) < length || memcmp(of->at, word, length) != 0)
        return false;
    return step(of, of->at + length);
}

/* Takes one of two words, and says whether it was the second. */
static bool either(rest *of, const char *first, const char *second, bool *is_second) {
    *is_second = take(of, second);
    return *is_second || take(of, first);
}

/* The digits at a place, at most so many and with at most this value; where they end, or NULL. */
static const char *digits(const char *at, const char *end, int most_digits, uint64_t most, uint64_t *number) {
    const char *start = at;

    for (*number = 0; at < end && *at >= '0' && *at <= '9' && at - start < most_digits; at++)
        *number = *number * 10 + (uint64_t)(*at - '0');
    return at > start && *number <= most ? at : NULL;
}

/* A number behind a letter, or behind nothing where the letter is 0. */
static bool numbered(rest *of, char letter, uint32_t *number) {
    uint64_t value;
    const char *at = of->at;

    if (!of->more || (letter && (at == of->end || *at++ != letter)))
        return false;
    at = digits(at, of->end, 10, UINT32_MAX, &value);
    *number = (uint32_t)value;
    return at && step(of, at);
}

/* A number with a minus before it if wanted. */
static bool signed_number(rest *of, int most_digits, uint64_t most, int64_t *number) {
    uint64_t value;
    const char *at = of->at;
    bool is_below = of->more && at < of->end && *at == '-';

    if (!of->more)
        return false;
    at = digits(at + is_below, of->end, most_digits, most + is_below, &value);
    *number = is_below ? (int64_t)(0 - value) : (int64_t)value;
    return at && step(of, at);
}

static bool rights(rest *of, uint32_t *mask) {
    const char *at = of->at + 2;
    const char *hex;
    static const char all[] = "0123456789abcdef";

    if (!of->more || of->end - of->at < 3 || of->at[0] != '0' || of->at[1] != 'x')
        return false;
    for (*mask = 0; at < of->end && *at != ' '; at++) {
        hex = strchr(all, *at >= 'A' && *at <= 'F' ? *at - 'A' + 'a' : *at);
        if (!*at || !hex || at - of->at >= 10)
            return false;
        *mask = *mask << 4 | (uint32_t)(hex - all);
    }
    return at > of->at + 2 && step(of, at);
}

static bool id(rest *of, line *read) {
    uint64_t slot, generation;
    const char *at = of->at;

    if (!of->more || at == of->end || *at != 's')
        return false;
    at = digits(at + 1, of->end, 10, UINT32_MAX, &slot);
    if (!at || at == of->end || *at != '.')
        return false;
    at = digits(at + 1, of->end, 10, UINT32_MAX, &generation);
    read->slot = (uint32_t)slot;
    read->generation = (uint32_t)generation;
    return at && step(of, at);
}

static bool handle(rest *of, line *read) {
    return read->count < MOST_HANDLES && numbered(of, 'h', &read->handles[read->count++]);
}

static bool handles(rest *of, line *read) {
    while (of->more)
        if (!handle(of, read))
            return false;
    return true;
}

static bool count(rest *of, line *read) {
    int64_t number;
    bool is_good = signed_number(of, 10, INT32_MAX, &number);

    read->integers[0] = read->integers[1];
    read->integers[1] = (int32_t)number;
    return is_good;
}

/* The word 'name' and TEXT, which is all the rest. */
static bool name(rest *of, line *read) {
    size_t length;

    if (!take(of, "name") || !of->more)
        return false;
    length = (size_t)(of->end - of->at);
    memcpy(read->name, of->at, length);
    read->name[length] = 0;
    read->has_name = true;
    of->more = false;
    return true;
}

static bool options(rest *of, line *read) {
    read->inherit = take(of, "inherit");
    read->has_access = take(of, "access");
    if (read->has_access && !rights(of, &read->access))
        return false;
    read->has_grant = take(of, "grant");
    if (read->has_grant && !rights(of, &read->grant))
        return false;
    return !of->more || name(of, read);
}

static bool duplicate(rest *of, line *read) {
    if (!numbered(of, 'p', &read->source) || !handle(of, read))
        return false;
    read->has_target = !take(of, "-");
    if (read->has_target && !numbered(of, 'p', &read->target))
        return false;
    read->same = take(of, "same");
    if (!read->same && !rights(of, &read->access))
        return false;
    read->inherit = take(of, "inherit");
    read->close_source = take(of, "close");
    return true;
}

static bool limit(rest *of, line *read) {
    if (take(of, "inf")) {
        read->timeout = UINT32_MAX;
        return true;
    }
    read->has_moment = of->more && of->at < of->end && *of->at == '@';
    of->at += read->has_moment;
    return read->has_moment ? signed_number(of, 19, INT64_MAX, &read->moment) : numbered(of, 0, &read->timeout);
}

static bool mode(rest *of, line *read) { return either(of, "any", "all", &read->all) && limit(of, read); }

static bool type(rest *of, line *read) { return numbered(of, 'k', &read->type) && read->type < 256; }

static bool kind(rest *of, line *read) {
    static const char *const words[] = {"event", "mutex", "semaphore", "timer"};
    int at = 0;

    while (at < 4 && !take(of, words[at]))
        at++;
    read->kind = (enum kind)(at % 4);
    return at < 4 || type(of, read);
}

static bool part(char letter, rest *of, line *read) {
    switch (letter) {
    case 't': return numbered(of, 't', &read->thread);
    case 'p': return numbered(of, 'p', &read->process);
    case 'w': return numbered(of, 'w', &read->wait);
    case 's': return numbered(of, 's', &read->slot);
    case 'S': return id(of, read);
    case 'h': return handle(of, read);
    case 'H': return handles(of, read);
    case 'n': return numbered(of, 0, &read->session);
    case 'g': return numbered(of, 0, &read->mask);
    case 'f': return numbered(of, 0, &read->flags);
    case 'i': return count(of, read);
    case 'V': return of->more && *of->at != '-' && signed_number(of, 19, INT64_MAX, &read->moment);
    case 'D': return signed_number(of, 19, INT64_MAX, &read->moment);
    case 'M': return rights(of, &read->access);
    case 'a': return either(of, "auto", "manual", &read->manual);
    case 'e': return either(of, "clear", "set", &read->initial);
    case 'o': return either(of, "free", "owned", &read->initial);
    case 'c': return either(of, "plain", "inherit", &read->inherit);
    case 'y': return read->is_host = type(of, read);
    case 'k': return kind(of, read);
    case 'O': return options(of, read);
    case 'L': return limit(of, read);
    case 'N': read->inherit = take(of, "inherit"); return name(of, read);
    case 'X': return duplicate(of, read);
    default: return mode(of, read);
    }
}

static bool call(rest *of, size_t verb, line *read) {
    const char *letter;

    read->verb = verbs[verb].verb;
    read->kind = verbs[verb].kind;
    for (letter = verbs[verb].form; *letter; letter++)
        if (!part(*letter, of, read))
            return false;
    return !of->more;
}

enum form read_line(const char *text, size_t length, line *read) {
    rest of = {text, text + length, true};
    size_t verb;

    if (length > MOST_BYTES)
        return FORM_BAD;
    if (length == 0 || *text == '#')
        return FORM_NOTHING;
    memset(read, 0, sizeof *read);
    for (verb = 0; verb < sizeof verbs / sizeof *verbs; verb++)
        if (take(&of, verbs[verb].word))
            return call(&of, verb, read) ? FORM_CALL : FORM_BAD;
    return FORM_BAD;
}
