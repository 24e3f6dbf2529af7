"""A second model of the whole manager, which answers lines of a script: the rules of docs/BEHAVIOUR.md once more, in plain Python.

    m = Model(limits)                     # what has the fields of om_limits
    m.answer("spawn 1")                   # "p1 t1"
    m.answer("event t1 auto clear")       # "h4 new s0.1"

It was written from the rules, docs/FORMATS.md and the header alone, apart from the library and from the definitions by which that is proved, and
checks/calls compares the two. So it keeps no counts and no index: what refers to an object, who waits and what is due is looked for anew each time.

Each line is a method of its name: its tests in their order, then its change, then what is answered; behind each the waits settle.
"""

import functools
import itertools
import math
import re

SYNCHRONIZE, MODIFY_STATE = 0x100000, 2
INHERIT, PROTECT_FROM_CLOSE = 1, 2
ALL_RIGHTS, ALL_OF_HOST = {"event": 0x1F0003, "mutex": 0x1F0001, "semaphore": 0x1F0003, "timer": 0x1F0003}, 0x1FFFFF
ABANDONED, ALERTED, TIMEOUT = 128, 192, 258
NUMBER_MOST, MOMENT_MOST = 2**32 - 1, 2**63 - 1
LINE_MOST, NAME_MOST, LISTED_MOST, PINS_MOST = 4096, 260, 64, 16

# The lines of a script, and those of --more; what stands in brackets may be missing.
MAKING = "[inherit] [access M] [grant M] [name TEXT]"
LINES = f"""
    spawn N
    child T inherit|plain
    thread P
    endthread T
    exit P
    event T auto|manual clear|set {MAKING}
    mutex T free|owned {MAKING}
    semaphore T I I {MAKING}
    timer T auto|manual {MAKING}
    open T event|mutex|semaphore|timer M [inherit] name TEXT
    dup T P H P|- same|M [inherit] [close]
    close|flags|set|reset|unlock|cancel T H
    setflags T H N N
    release T H I
    settimer T H D
    tick V
    wait T any|all TIME [HANDLES]
    result|expire W
    count|pin|unpin|card S
    reap K
    dir"""
MORE = f"""
    host T Y auto|manual clear|set {MAKING}
    open T Y M [inherit] name TEXT
    signal S clear|set
    pulse T H
    setperiod T H D I
    wait T any|all @D [HANDLES]
    signalwait T H TIME|@D H
    sleep T TIME|@D
    alert W"""


class BadLine(Exception):
    """Of a line that is none."""


class Refused(Exception):
    """Of a call, with the number of a Win32 system error code."""


def test(is_so, number):
    if not is_so:
        raise Refused(number)


# ---- Lines ----


def number(text, least=0, most=NUMBER_MOST):
    if not least <= int(text) <= most:
        raise BadLine
    return int(text)


def moment(text):
    return number(text, -(2**63), MOMENT_MOST)


def until(text):
    """Milliseconds as a moment below 0, which is so long from now; nothing is without end."""
    return None if text == "inf" or number(text) == NUMBER_MOST else -10_000 * number(text)


# Each word of a line: its form, and what it says.
WORDS = {
    "N": ("[0-9]{1,10}", number),
    "I": ("-?[0-9]{1,10}", lambda text: number(text, -(2**31), 2**31 - 1)),
    "V": ("[0-9]{1,19}", moment),
    "D": ("-?[0-9]{1,19}", moment),
    "M": ("0x[0-9a-fA-F]{1,8}", lambda text: int(text, 16)),
    **{word: (f"{letter}[0-9]{{1,10}}", lambda text: number(text[1:])) for word, letter in zip("TPHWK", "tphws")},
    "S": (r"s[0-9]{1,10}\.[0-9]{1,10}", lambda text: tuple(map(number, text[1:].split(".")))),
    "Y": ("k[0-9]{1,10}", lambda text: f"k{number(text[1:], most=255)}"),
    "TIME": ("[0-9]{1,10}|inf", until),
    "@D": ("@-?[0-9]{1,19}", lambda text: moment(text[1:])),
    "HANDLES": ("h[0-9]{1,10}(?: h[0-9]{1,10})*", lambda text: [number(it[1:]) for it in text.split(" ")]),
    "TEXT": (".*", str),
}


def ways(part):
    """The forms of a part of a line, with what they say; a keyword says itself."""
    return [WORDS.get(word, (word, str)) for word in part.strip("[]").split(" ")[-1].split("|")]


def form(part):
    keyword = "name " if "TEXT" in part else part[1:-2] if part.endswith(" M]") else ""
    whole = f" {keyword}({'|'.join(it for it, _ in ways(part))})"
    return f"(?:{whole})?" if part.startswith("[") else whole


def forms(lines):
    """For each line its verb, its form, and its parts."""
    for verbs, *parts in (re.findall(r"\[.*?\]|name TEXT|\S+", line) for line in lines.split("\n")[1:]):
        for verb in verbs.split("|"):
            yield verb, re.compile(verb + "".join(map(form, parts)), re.S), parts


@functools.lru_cache(1 << 16)
def said(part, text):
    return next(read(text) for way, read in ways(part) if re.fullmatch(way, text, re.S))


def call_of(line, known):
    """What a line asks for, and the words that it says to that; a part that is missing says nothing."""
    for verb, whole, parts in known:
        if verb == line.partition(" ")[0] and (found := whole.fullmatch(line)):
            return verb, [None if text is None else said(part, text) for part, text in zip(parts, found.groups())]
    raise BadLine


# ---- What a manager has ----


class Object:
    """An object, until its slot is taken back. The kind of one of the host's own is its type."""

    def __init__(self, kind, slot, generation, name, grant, manual=False, signaled=False, count=0, most=0, owner=None):
        self.kind, self.id, self.name, self.grant, self.manual = kind, (slot, generation), name, grant, manual
        self.signaled = signaled  # an event, a timer, a host's object
        self.count, self.most = count, most  # of a semaphore; of a mutex how often its owner owns it
        self.owner, self.is_abandoned = owner, False
        self.due, self.period = None, 0

    def __str__(self):
        return "s{}.{}".format(*self.id)

    def shape(self):
        if self.kind in ("mutex", "semaphore"):
            return "mutex" if self.kind == "mutex" else f"semaphore {self.most}"
        return ("timer " if self.kind == "timer" else "event ") + ("manual" if self.manual else "auto")

    def is_signaled_for(self, thread):
        if self.kind == "mutex":
            return self.owner in (None, thread)
        return self.count > 0 if self.kind == "semaphore" else self.signaled

    def acquire(self, thread):
        """A thread whose wait it satisfies takes it; whether it was abandoned."""
        was_abandoned, self.is_abandoned = self.is_abandoned, False
        if self.kind == "mutex":
            self.owner, self.count = thread, self.count + 1
        elif self.kind == "semaphore":
            self.count -= 1
        else:
            self.signaled = self.manual
        return was_abandoned

    def unlock(self):
        self.count -= 1
        self.owner = self.owner if self.count else None

    def fire(self, now):
        """A timer whose moment has come is signaled, and with a period due again at the first moment after now that lies whole periods behind."""
        if self.due is not None and self.due <= now:
            self.signaled = True
            self.due = self.due + ((now - self.due) // self.period + 1) * self.period if self.period else None


class Handle:
    def __init__(self, it, rights, flags):
        self.object, self.rights, self.flags = it, rights, flags


class Wait:
    """A wait, pending while it has no code."""

    def __init__(self, thread, is_all, objects, deadline):
        self.thread, self.is_all, self.objects, self.deadline, self.code = thread, is_all, objects, deadline, None

    def is_ready(self):
        return (all if self.is_all else any)(it.is_signaled_for(self.thread) for it in self.objects)

    def take_effect(self):
        if self.is_all:
            # (each of them is acquired)
            self.code = ABANDONED * any([it.acquire(self.thread) for it in self.objects])
        else:
            index, it = next((index, it) for index, it in enumerate(self.objects) if it.is_signaled_for(self.thread))
            self.code = index + ABANDONED * it.acquire(self.thread)


class Model:
    def __init__(self, limits, reuse=False, repeats=False, more=True):
        self.limits, self.reuse, self.repeats, self.forms = limits, reuse, repeats, [*forms(LINES + MORE if more else LINES)]
        self.lines = self.now = 0
        self.processes, self.threads, self.tables = {}, {}, {}  # the session of a process, the process of a thread, the handles of a process by value
        self.waits = {}  # by number, in the order in which they began, until their answers are taken
        self.given = {"processes": 0, "threads": 0, "waits": 0}  # how many numbers
        self.objects = {}  # by slot, in the order in which they were made
        self.generations, self.retired = {}, set()  # the generation of a slot whose first object is gone; slots that are given no more
        self.pins = []  # what the reader of a script holds

    def answers(self, script):
        """What is printed to a whole script; both are bytes."""
        lines = script.decode("latin-1").split("\n")
        told = map(self.answer, lines if lines[-1] else lines[:-1])
        return "".join(f"{it}\n" for it in told if it is not None).encode("latin-1")

    def answer(self, line):
        """What is answered to a line without its line feed, in which each character is a byte; nothing to one that is empty or a comment."""
        self.lines += 1
        line = line.removesuffix("\r")
        try:
            if len(line) > LINE_MOST:
                raise BadLine
            if line == "" or line[0] == "#":
                return None
            verb, words = call_of(line, self.forms)
            told = getattr(self, verb)(*words)
        except BadLine:
            return f"bad line {self.lines}"
        except Refused as it:
            told = f"error {it}"
        self.settle()
        return told

    def settle(self):
        """As long as a pending wait is ready, the one that began first of those takes effect."""
        while ready := next((it for it in self.waits.values() if it.code is None and it.is_ready()), None):
            ready.take_effect()

    # ---- What is looked for ----

    def caller(self, thread):
        """The handles of a thread that makes a call."""
        test(thread in self.threads, 87)
        test(all(it.thread != thread for it in self.waits.values()), 170)
        return self.tables[self.threads[thread]]

    def handle(self, table, value):
        test(value & ~3 in table, 6)
        return table[value & ~3]

    def object(self, thread, value, kind, right=0):
        """The object of a handle in a call for one kind that needs a right."""
        found = self.handle(self.caller(thread), value)
        test(found.object.kind == kind, 6)
        test(found.rights & right == right, 5)
        return found.object

    def counts(self, it):
        """How many handles name an object, and how many places of pending waits."""
        handles = sum(handle.object is it for table in self.tables.values() for handle in table.values())
        return handles, sum(wait.objects.count(it) for wait in self.waits.values() if wait.code is None)

    def there(self, id):
        """The object of an Id, which may have ended, if its slot has it."""
        it = self.objects.get(id[0])
        return it if it and it.id == id else None

    def named(self):
        """What has a name, as long as it has handles, in the order in which it was made."""
        return [it for it in self.objects.values() if it.name and self.counts(it)[0]]

    def name(self, thread, text):
        """A name: the session of its namespace, 0 being the global one, and the text behind its prefix."""
        test(len(text) <= NAME_MOST, 206)
        test(all(" " <= it <= "~" for it in text), 87)
        session = self.processes[self.threads[thread]]
        prefix, space = next(it for it in [("Global\\", 0), ("Local\\", session), ("", session)] if text.startswith(it[0]))
        base = text.removeprefix(prefix)
        test(base, 87)
        test("\\" not in base, 3)
        return space, base

    def next(self, what):
        """The number of a process, thread or wait that begins."""
        live, most = getattr(self, what), getattr(self.limits, what)
        test((len(live) if self.reuse else self.given[what]) < most, 1450)
        return next(it for it in itertools.count(1) if it not in live) if self.reuse else self.given[what] + 1

    def begin(self, what, number, it):
        getattr(self, what)[number] = it
        self.given[what] += 1
        return number

    def place(self, table, it, rights, inherit, how):
        """A new handle, of the least value that isn't used."""
        test(len(table) < self.limits.handles, 1450)
        value = next(it for it in itertools.count(4, 4) if it not in table)
        table[value] = Handle(it, rights, INHERIT if inherit else 0)
        return f"h{value} {how} {it}"

    # ---- Processes and threads ----

    def start(self, session, handles):
        process, thread = self.next("processes"), self.next("threads")
        self.begin("processes", process, session)
        self.begin("threads", thread, process)
        self.tables[process] = {value: Handle(it.object, it.rights, it.flags) for value, it in handles.items()}
        return f"p{process} t{thread}"

    def spawn(self, session):
        return self.start(session, {})

    def child(self, thread, how):
        table = self.caller(thread)
        inherited = {value: it for value, it in table.items() if how == "inherit" and it.flags & INHERIT}
        return self.start(self.processes[self.threads[thread]], inherited)

    def thread(self, process):
        test(process in self.processes, 87)
        return f"t{self.begin('threads', self.next('threads'), process)}"

    def end(self, thread):
        self.waits = {number: it for number, it in self.waits.items() if it.thread != thread}
        for it in self.objects.values():
            if it.owner == thread:
                it.owner, it.count, it.is_abandoned = None, 0, True
        del self.threads[thread]

    def endthread(self, thread):
        test(thread in self.threads, 87)
        process = self.threads[thread]
        self.end(thread)
        if process not in self.threads.values():
            self.exit(process)
        return f"ended t{thread}"

    def exit(self, process):
        test(process in self.processes, 87)
        for thread in sorted(it for it in self.threads if self.threads[it] == process):
            self.end(thread)
        del self.processes[process], self.tables[process]
        return f"exited p{process}"

    # ---- Objects and handles ----

    def create(self, thread, kind, inherit, access, grant, text, **body):
        table, rights = self.caller(thread), ALL_RIGHTS.get(kind, ALL_OF_HOST)
        test(grant is None or grant & ~rights == 0, 87)
        name = None if text is None else self.name(thread, text)
        asked = rights if access is None else access
        if it := next((it for it in self.named() if it.name == name), None):
            return self.opened(table, it, kind, asked, inherit, "exists")
        test(asked & ~rights == 0, 5)
        slot = next((it for it in range(self.limits.slots) if it not in self.objects and it not in self.retired), None)
        test(slot is not None, 1450)
        it = Object(kind, slot, self.generations.get(slot, 1), name, rights if grant is None else grant, **body)
        told = self.place(table, it, asked, inherit, "new")
        self.objects[slot] = it
        return told

    def opened(self, table, it, kind, asked, inherit, how):
        test(it.kind == kind, 6)
        test(asked and asked & ~it.grant == 0, 5)
        return self.place(table, it, asked, inherit, how)

    def event(self, thread, reset, state, *making):
        return self.create(thread, "event", *making, manual=reset == "manual", signaled=state == "set")

    def mutex(self, thread, state, *making):
        is_owned = state == "owned"
        return self.create(thread, "mutex", *making, owner=thread if is_owned else None, count=int(is_owned))

    def semaphore(self, thread, count, most, *making):
        self.caller(thread)
        test(0 <= count <= most and most > 0, 87)
        return self.create(thread, "semaphore", *making, count=count, most=most)

    def timer(self, thread, reset, *making):
        return self.create(thread, "timer", *making, manual=reset == "manual")

    def host(self, thread, kind, reset, state, *making):
        return self.create(thread, kind, *making, manual=reset == "manual", signaled=state == "set")

    def open(self, thread, kind, asked, inherit, text):
        table, name = self.caller(thread), self.name(thread, text)
        it = next((it for it in self.named() if it.name == name), None)
        test(it, 2)
        return self.opened(table, it, kind, asked, inherit, "opened")

    def dup(self, thread, process, value, target, asked, inherit, close):
        self.caller(thread)
        test(process in self.processes, 87)
        test(target != "-" or close, 87)
        table, source = self.tables[process], self.handle(self.tables[process], value)
        is_protected = source.flags & PROTECT_FROM_CLOSE
        test(target != "-" or not is_protected, 6)
        # (from here on the source is closed, whatever the answer is)
        try:
            if target == "-":
                return "closed"
            test(target in self.processes, 87)
            test(asked == "same" or asked & ~(source.rights | source.object.grant) == 0, 5)
            return self.place(self.tables[target], source.object, source.rights if asked == "same" else asked, inherit, "dup")
        finally:
            if close and not is_protected:
                del table[value & ~3]

    def close(self, thread, value):
        table = self.caller(thread)
        test(not self.handle(table, value).flags & PROTECT_FROM_CLOSE, 6)
        del table[value & ~3]
        return "closed"

    def flags(self, thread, value):
        return f"flags {self.handle(self.caller(thread), value).flags}"

    def setflags(self, thread, value, mask, flags):
        table = self.caller(thread)
        test(mask & ~(INHERIT | PROTECT_FROM_CLOSE) == 0, 87)
        it = self.handle(table, value)
        it.flags = it.flags & ~mask | flags & mask
        return "done"

    # ---- Signals, and the time ----

    def set(self, thread, value):
        self.object(thread, value, "event", MODIFY_STATE).signaled = True
        return "done"

    def reset(self, thread, value):
        self.object(thread, value, "event", MODIFY_STATE).signaled = False
        return "done"

    def pulse(self, thread, value):
        self.set(thread, value)
        self.settle()
        return self.reset(thread, value)

    def release(self, thread, value, count):
        self.caller(thread)
        test(count > 0, 87)
        it = self.object(thread, value, "semaphore", MODIFY_STATE)
        test(it.count + count <= it.most, 298)
        it.count += count
        return f"previous {it.count - count}"

    def unlock(self, thread, value):
        it = self.object(thread, value, "mutex")
        test(it.owner == thread, 288)
        it.unlock()
        return "done"

    def signal(self, id, state):
        it = self.there(id)
        test(it and it.kind not in ALL_RIGHTS and any(self.counts(it)), 6)
        it.signaled = state == "set"
        return "done"

    def moment(self, due):
        return math.inf if due is None else self.now - due if due < 0 else due

    def settimer(self, thread, value, due, period=0):
        it = self.object(thread, value, "timer", MODIFY_STATE)
        it.signaled, it.due, it.period = False, self.moment(due), 10_000 * period
        it.fire(self.now)
        return "done"

    def setperiod(self, thread, value, due, period):
        self.caller(thread)
        test(period >= 0, 87)
        return self.settimer(thread, value, due, period)

    def cancel(self, thread, value):
        it = self.object(thread, value, "timer", MODIFY_STATE)
        it.due, it.period = None, 0
        return "done"

    def tick(self, now):
        test(now >= self.now, 87)
        self.now = now
        for it in self.objects.values():
            it.fire(now)
        self.settle()
        for it in self.waits.values():
            if it.code is None and it.deadline <= now:
                it.code = TIMEOUT
        return f"now {now}"

    # ---- Waits ----

    def has_room(self, thread, it):
        """Whether a thread may own it once more, if it is a mutex."""
        return it.owner != thread or it.count < self.limits.max_recursion

    def pend(self, wait):
        """A wait becomes pending: its number."""
        return self.begin("waits", wait.thread if self.reuse else self.next("waits"), wait)

    def wait(self, thread, which, due, listed):
        table, values = self.caller(thread), [it & ~3 for it in listed or []]
        is_once = len({*values}) == len(values) or self.repeats and which == "any"
        test(0 < len(values) <= LISTED_MOST and is_once, 87)
        handles = [self.handle(table, it) for it in values]
        test(all(it.rights & SYNCHRONIZE for it in handles), 5)
        wait = Wait(thread, which == "all", [it.object for it in handles], self.moment(due))
        test(which == "any" or len({*wait.objects}) == len(values), 87)
        test(all(self.has_room(thread, it) for it in wait.objects), 1450)
        if wait.is_ready():
            wait.take_effect()
            return f"code {wait.code}"
        return f"pending w{self.pend(wait)}" if wait.deadline > self.now else f"code {TIMEOUT}"

    def signalwait(self, thread, first, due, second):
        table = self.caller(thread)
        first, second = self.handle(table, first), self.handle(table, second)
        it = first.object
        test(second.rights & SYNCHRONIZE, 5)
        test(it.kind in ("event", "semaphore", "mutex"), 6)
        test(it.kind == "mutex" or first.rights & MODIFY_STATE, 5)
        test(it.kind != "semaphore" or it.count < it.most, 298)
        test(it.kind != "mutex" or it.owner == thread, 288)
        test(self.has_room(thread, second.object), 1450)
        wait = Wait(thread, False, [second.object], self.moment(due))
        number = self.pend(wait)
        if it.kind == "event":
            it.signaled = True
        elif it.kind == "semaphore":
            it.count += 1
        else:
            it.unlock()
        self.settle()
        if wait.code is None and wait.deadline > self.now:
            return f"signaled w{number}"
        del self.waits[number]
        return f"code {TIMEOUT if wait.code is None else wait.code}"

    def sleep(self, thread, due):
        self.caller(thread)
        wait = Wait(thread, False, [], self.moment(due))
        return f"pending w{self.pend(wait)}" if wait.deadline > self.now else f"code {TIMEOUT}"

    def result(self, number):
        test(number in self.waits, 87)
        return f"pending w{number}" if self.waits[number].code is None else f"code {self.waits.pop(number).code}"

    def expire(self, number, code=TIMEOUT):
        test(number in self.waits and self.waits[number].code is None, 87)
        self.waits[number].code = code
        return f"expired w{number}"

    def alert(self, number):
        self.expire(number, ALERTED)
        return "done"

    # ---- What refers to objects, their slots, and the reader of a script ----

    def count(self, id):
        test(id[0] < self.limits.slots, 87)
        test(self.there(id), 6)
        handles, places = self.counts(self.there(id))
        return f"handles {handles} waits {places} hold {int(handles + places == 0)}"

    def reap(self, slot):
        test(slot < self.limits.slots, 87)
        it = self.objects.get(slot)
        test(it and not any(self.counts(it)), 6)
        if it.id in self.pins:
            return f"{it} held {self.pins.count(it.id)}"
        del self.objects[slot]
        if it.id[1] == self.limits.max_gen:
            self.retired.add(slot)
            return f"{it} retired"
        self.generations[slot] = it.id[1] + 1
        return f"{it} freed"

    def dir(self):
        rows = [(f"session {it.name[0]}" if it.name[0] else "global", it, it.name[1]) for it in self.named()]
        return "\n".join([f"dir {len(rows)}", *(f"{space} {it} {base}" for space, it, base in rows)])

    def pin(self, id):
        it, generation = self.there(id), self.generations.get(id[0], 1)
        if id[0] >= self.limits.slots:
            return "no slot"
        if len(self.pins) == PINS_MOST:
            return "held full"
        if id[0] not in self.retired and (generation < id[1] or generation == id[1] and not it):
            return "unborn"
        if not it or not any(self.counts(it)):
            return "stale"
        if self.pins.count(id) == self.limits.max_pins:
            return "pins full"
        self.pins.append(id)
        return f"pinned {it} {it.shape()}"

    def unpin(self, id):
        if id not in self.pins:
            return "not held"
        self.pins.remove(id)
        return "unpinned s{}.{}".format(*id)

    def card(self, id):
        it = self.there(id)
        return f"card {it} {it.shape()} grant 0x{it.grant:x}" if id in self.pins else "not held"

    # ---- What there is, for a person ----

    def dump(self):
        """The lines that `obman --dump` prints."""
        by, lines = {it.thread: (number, it) for number, it in self.waits.items()}, [f"now {self.now}"]
        for process, session in sorted(self.processes.items()):
            lines.append(f"p{process} session {session}")
            for thread in sorted(it for it, its in self.threads.items() if its == process):
                lines.append(f"  t{thread}" + (self.told_wait(*by[thread]) if thread in by else ""))
            for value, handle in sorted(self.tables[process].items()):
                flags = " inherit" * bool(handle.flags & INHERIT) + " protected" * bool(handle.flags & PROTECT_FROM_CLOSE)
                lines.append(f"  h{value} {handle.object} {handle.rights:#x}{flags}")
        lines += [f"{it}{self.told_object(it)}" for it in sorted(self.objects.values(), key=lambda it: it.id)]
        stuck = {it.thread: it for it in self.waits.values() if it.code is None and it.deadline in (None, math.inf) and it.objects}
        while left := [thread for thread in stuck if not self.is_stuck(thread, stuck)]:
            for thread in left:
                del stuck[thread]
        return lines + (["deadlock of" + "".join(f" t{it}" for it in sorted(stuck))] if stuck else [])

    def is_stuck(self, thread, by):
        """Whether a wait needs mutexes that others of some threads own."""
        wait = by[thread]
        return (any if wait.is_all else all)(it.kind == "mutex" and it.owner in by and it.owner != thread for it in wait.objects)

    def told_wait(self, number, wait):
        if wait.code is not None:
            return f" has an answer to w{number}"
        listed = "".join(f" {it}" for it in wait.objects)
        how = f" sleeps by w{number}" if not listed else f" waits by w{number} for" + (" all of" if wait.is_all else " any of" * (len(wait.objects) > 1)) + listed
        return how + ("" if wait.deadline in (None, math.inf) else f" until {wait.deadline}")

    def told_object(self, it):
        handles, waits = self.counts(it)[:2]
        if not handles and not waits:
            return " ended"
        name = next(("Global" if space == 0 else f"session {space}", base) for space, base in [it.name]) if it.name and handles else None
        said = [it.kind if it.kind in ALL_RIGHTS else f"host {it.kind[1:]}", name and '"{}\\{}"'.format(*name), "manual" if it.manual else None]
        if it.kind == "semaphore":
            said.append(f"{it.count} of {it.most}")
        elif it.kind == "mutex":
            said += ["abandoned" if it.is_abandoned else None, it.owner and f"owned by t{it.owner}, {it.count} times"]
        else:
            said += ["signaled" if it.signaled else None, None if it.due is None else f"due {it.due}"]
        who = sorted(wait.thread for wait in self.waits.values() if wait.code is None for that in wait.objects if that is it)
        return f" {' '.join(filter(None, said))}; handles {handles}, waits {waits}" + (":" + "".join(f" t{thread}" for thread in who) if waits else "")
