"""The object layer of the NT kernel as Win32 programs see it: a binding of libobman by ctypes.

    import obman

    with obman.Manager() as m:
        a, b = m.spawn(1), m.spawn(1)
        event = m.create_event(a.thread, name="Local\\\\ready")
        again = m.open_event(b.thread, obman.SYNCHRONIZE, False, "ready")
        m.wait(b.thread, [again.handle])                # Pending(wait=1)
        m.set_event(a.thread, event.handle)
        for answer in m.answers():                      # behind each call: who may go on, and with which code
            print(answer.thread, answer.code)

A call that is refused raises an `Error` with the Win32 number. What each call does and refuses `obman.h` says, and how a host lives
with the library docs/EMBEDDING.md. The shared library is the one that the environment's OBMAN names, or that of the tree in which this
module was installed (share/obman/bindings/python), else the system's.
"""

import ctypes
import ctypes.util
import os
import pathlib
from collections import namedtuple
from ctypes import POINTER, Structure, c_bool, c_char, c_int32, c_int64, c_size_t, c_uint8, c_uint32, c_uint64, c_void_p

# Which release this module is of, 1.2.0: two decimal digits each for the second number and the third.
VERSION = 10200

MODIFY_STATE = 0x2
DELETE = 0x10000
READ_CONTROL = 0x20000
WRITE_DAC = 0x40000
WRITE_OWNER = 0x80000
SYNCHRONIZE = 0x100000
EVENT_ALL_ACCESS = SEMAPHORE_ALL_ACCESS = TIMER_ALL_ACCESS = 0x1F0003
MUTEX_ALL_ACCESS = 0x1F0001
HOST_ALL_ACCESS = 0x1FFFFF
# Each call refuses these with 5: map_access has what they stand for.
GENERIC_ALL, GENERIC_EXECUTE, GENERIC_WRITE, GENERIC_READ = 0x10000000, 0x20000000, 0x40000000, 0x80000000
HANDLE_FLAG_INHERIT, HANDLE_FLAG_PROTECT_FROM_CLOSE = 1, 2
DUPLICATE_CLOSE_SOURCE, DUPLICATE_SAME_ACCESS = 1, 2
INFINITE = 0xFFFFFFFF
FOREVER = 0x7FFFFFFFFFFFFFFF
MAXIMUM_WAIT_OBJECTS = 64
WAIT_OBJECT_0, WAIT_ABANDONED_0, WAIT_IO_COMPLETION, WAIT_TIMEOUT = 0, 128, 192, 258
EVENT, MUTEX, SEMAPHORE, TIMER, ENDED = range(5)
HOST = 256  # and the type of an object of the host's own
FREED, RETIRED, HELD = range(3)
NAME_MOST = 260
LINE_MOST = 4098
SUCCESS, ERROR_ALREADY_EXISTS, ERROR_IO_PENDING = 0, 183, 997

ERRORS = {
    2: "ERROR_FILE_NOT_FOUND",
    3: "ERROR_PATH_NOT_FOUND",
    5: "ERROR_ACCESS_DENIED",
    6: "ERROR_INVALID_HANDLE",
    8: "ERROR_NOT_ENOUGH_MEMORY",
    13: "ERROR_INVALID_DATA",
    87: "ERROR_INVALID_PARAMETER",
    122: "ERROR_INSUFFICIENT_BUFFER",
    170: "ERROR_BUSY",
    206: "ERROR_FILENAME_EXCED_RANGE",
    259: "ERROR_NO_MORE_ITEMS",
    288: "ERROR_NOT_OWNER",
    298: "ERROR_TOO_MANY_POSTS",
    1168: "ERROR_NOT_FOUND",
    1450: "ERROR_NO_SYSTEM_RESOURCES",
    1816: "ERROR_NOT_ENOUGH_QUOTA",
}
NAMES = {0: "ERROR_SUCCESS", 183: "ERROR_ALREADY_EXISTS", 192: "WAIT_IO_COMPLETION", 258: "WAIT_TIMEOUT", 997: "ERROR_IO_PENDING", **ERRORS}


def error_name(number):
    """The Win32 name of a number that a call answers, or of WAIT_TIMEOUT or WAIT_IO_COMPLETION, for logs; "unknown" for another."""
    return NAMES.get(number, "unknown")


def map_access(kind, mask):
    """An access mask with the rights of a kind in the place of generic ones, as NT maps them (`om_map_access`)."""
    is_host, has_state = kind > ENDED, kind <= ENDED and kind != MUTEX
    rights = {
        GENERIC_READ: READ_CONTROL | (not is_host),
        GENERIC_WRITE: READ_CONTROL | MODIFY_STATE * has_state,
        GENERIC_EXECUTE: READ_CONTROL | SYNCHRONIZE,
        GENERIC_ALL: HOST_ALL_ACCESS if is_host else EVENT_ALL_ACCESS if has_state else MUTEX_ALL_ACCESS,
    }
    mapped = mask & 0xFFFFFFF
    for bit, of_kind in rights.items():
        mapped |= of_kind if mask & bit else 0
    return mapped


def due_in(milliseconds):
    """Until when a wait of so many milliseconds lasts, as wait_until, sleep and signal_and_wait take it."""
    return FOREVER if milliseconds == INFINITE else -10000 * milliseconds


STATUSES = {
    0: 0, 2: 0xC0000034, 3: 0xC000003A, 5: 0xC0000022, 6: 0xC0000008, 8: 0xC0000017, 87: 0xC000000D, 183: 0x40000000, 206: 0xC0000106,
    192: 0xC0, 258: 0x102, 288: 0xC0000046, 298: 0xC0000047, 997: 0x103, 1450: 0xC000009A,
}  # fmt: skip


def nt_status(number):
    """The NTSTATUS of a number that a call answers, or of WAIT_TIMEOUT or WAIT_IO_COMPLETION (`om_nt_status`)."""
    return STATUSES.get(number, 0xC0000001)


class Error(Exception):
    """A call was refused; `number` is the Win32 system error code."""

    def __init__(self, number):
        super().__init__(f"{error_name(number)} ({number})")
        self.number = number


def _struct(name, **fields):
    def shown(self):
        return f"{name}({', '.join(f'{field}={getattr(self, field)!r}' for field in fields)})"

    def same(self, other):
        return type(self) is type(other) and bytes(self) == bytes(other)

    return type(name, (Structure,), {"_fields_": [*fields.items()], "__repr__": shown, "__eq__": same, "__hash__": lambda self: hash(bytes(self))})


_Manager = _struct("om_manager", at=c_void_p)
_Reader = _struct("om_reader", at=c_void_p)
Limits = _struct(
    "om_limits", slots=c_uint32, processes=c_uint32, threads=c_uint32, handles=c_uint32, waits=c_uint32, max_pins=c_uint32, max_gen=c_uint32, max_recursion=c_uint32
)
Room = _struct("om_room", slots=c_uint32, processes=c_uint32, threads=c_uint32, handles=c_uint32, waits=c_uint32)
Member = _struct("om_member", process=c_uint32, thread=c_uint32)
Object = _struct("om_object", slot=c_uint32, generation=c_uint32)
Opening = _struct("om_opening", handle=c_uint32, object=Object)
_Making = _struct("om_making", access=c_uint32, grant=c_uint32, named=c_bool, inherit=c_bool, has_access=c_bool, has_grant=c_bool)
Description = _struct("om_description", kind=c_uint32, max=c_uint32, grant=c_uint32, manual=c_bool)
Descriptor = _struct("om_descriptor", kind=c_uint32, max=c_uint32, manual=c_bool)
State = _struct("om_object_state", due=c_uint64, kind=c_uint32, count=c_uint32, max=c_uint32, owner=c_uint32, signaled=c_bool, abandoned=c_bool, has_due=c_bool)
Entry = _struct("om_entry", object=Object, handle=c_uint32, access=c_uint32, flags=c_uint32)
HandleInfo = _struct(
    "om_handle_info", data=c_uint64, object=Object, kind=c_uint32, access=c_uint32, flags=c_uint32, reserved=c_uint32
)
Reaping = _struct("om_reaping", object=Object, outcome=c_uint32, pins=c_uint32)
References = _struct("om_references", waits=c_uint64, handles=c_uint32, hold=c_uint32)
Answer = _struct("om_answer", wait=c_uint32, thread=c_uint32, code=c_uint32)
_Pending = _struct("om_pending", deadline=c_uint64, thread=c_uint32, all=c_bool, has_deadline=c_bool)
_Row = _struct("om_row", object=Object, session=c_uint32, length=c_uint32)

# How a wait stands: its code, or its number while it is pending.
Over = namedtuple("Over", "code")
Pending = namedtuple("Pending", "wait")
# What a pending wait is for: the moment at which its time is up is None where it lasts until it is satisfied.
WaitedFor = namedtuple("WaitedFor", "thread all deadline objects")
# A row of the directory of names: session 0 is the global namespace.
Name = namedtuple("Name", "object session base")


LIMITS_DEFAULT = 64, 64, 256, 1024, 1_000_000, 1073741823, 4294967295, 2147483647
LIMITS_MOST = 65536, 65536, 65536, 16384, 4294967295, 1073741823, 4294967295, 2147483647


def _limits(values, others):
    return Limits(**{**{name: value for (name, _), value in zip(Limits._fields_, values)}, **others})


def default_limits(**others):
    """The limits that serve most guests, with some others."""
    return _limits(LIMITS_DEFAULT, others)


def most_limits(**others):
    """The greatest limits, with some others, for a host that runs for long without `reuse`: numbers of processes, threads and pending waits
    are given once then. A manager reserves 14 MiB from the start, nearly all for its slots."""
    return _limits(LIMITS_MOST, others)


_M, _R, _U, _B, _Z = POINTER(_Manager), POINTER(_Reader), c_uint32, c_bool, c_size_t
_NAMED = [_M, _U, POINTER(_Making), ctypes.c_char_p, _Z]
_OPENS = [_M, _U, _U, _B, ctypes.c_char_p, _Z, POINTER(Opening)]

# Each function with its result and its parameters, as the header declares them.
FUNCTIONS = {
    "om_new": (_U, [POINTER(Limits), _M]),
    "om_new_reusing": (_U, [POINTER(Limits), _M]),
    "om_new_with": (_U, [POINTER(Limits), c_bool, c_bool, _M]),
    "om_free": (None, [_Manager]),
    "om_limits_of": (_U, [_M, POINTER(Limits)]),
    "om_room_of": (_U, [_M, _U, POINTER(Room)]),
    "om_spawn": (_U, [_M, _U, POINTER(Member)]),
    "om_child": (_U, [_M, _U, _B, POINTER(Member)]),
    "om_thread": (_U, [_M, _U, POINTER(_U)]),
    "om_end_thread": (_U, [_M, _U]),
    "om_exit": (_U, [_M, _U]),
    "om_create_event": (_U, [*_NAMED, _B, _B, POINTER(Opening)]),
    "om_create_mutex": (_U, [*_NAMED, _B, POINTER(Opening)]),
    "om_create_semaphore": (_U, [*_NAMED, c_int32, c_int32, POINTER(Opening)]),
    "om_create_timer": (_U, [*_NAMED, _B, POINTER(Opening)]),
    "om_create_host": (_U, [*_NAMED, c_uint8, _B, _B, POINTER(Opening)]),
    "om_open_event": (_U, _OPENS),
    "om_open_mutex": (_U, _OPENS),
    "om_open_semaphore": (_U, _OPENS),
    "om_open_timer": (_U, _OPENS),
    "om_open_host": (_U, [_M, _U, c_uint8, _U, _B, ctypes.c_char_p, _Z, POINTER(Opening)]),
    "om_duplicate": (_U, [_M, _U, _U, _U, _U, _U, _B, _U, POINTER(Opening)]),
    "om_close": (_U, [_M, _U, _U]),
    "om_handle_flags": (_U, [_M, _U, _U, POINTER(_U)]),
    "om_set_handle_flags": (_U, [_M, _U, _U, _U, _U]),
    "om_resolve": (_U, [_M, _U, _U, POINTER(Object)]),
    "om_set_event": (_U, [_M, _U, _U]),
    "om_reset_event": (_U, [_M, _U, _U]),
    "om_pulse_event": (_U, [_M, _U, _U]),
    "om_release_semaphore": (_U, [_M, _U, _U, c_int32, POINTER(_U)]),
    "om_release_mutex": (_U, [_M, _U, _U]),
    "om_signal_host": (_U, [_M, _U, _U, _B]),
    "om_set_timer": (_U, [_M, _U, _U, c_int64]),
    "om_set_periodic_timer": (_U, [_M, _U, _U, c_int64, c_int32]),
    "om_cancel_timer": (_U, [_M, _U, _U]),
    "om_tick": (_U, [_M, c_uint64]),
    "om_advance": (_U, [_M, c_uint64]),
    "om_next_due": (_U, [_M, POINTER(c_uint64)]),
    "om_wait": (_U, [_M, _U, _B, _U, POINTER(_U), _Z, POINTER(_U)]),
    "om_wait_until": (_U, [_M, _U, _B, c_int64, POINTER(_U), _Z, POINTER(_U)]),
    "om_signal_and_wait": (_U, [_M, _U, _U, _U, c_int64, POINTER(_U)]),
    "om_sleep": (_U, [_M, _U, c_int64, POINTER(_U)]),
    "om_wait_result": (_U, [_M, _U, POINTER(_U)]),
    "om_take_answered": (_U, [_M, POINTER(Answer), _Z, POINTER(_Z)]),
    "om_expire": (_U, [_M, _U]),
    "om_alert": (_U, [_M, _U]),
    "om_card": (_U, [_M, _U, _U, POINTER(Description)]),
    "om_state": (_U, [_M, _U, _U, POINTER(State)]),
    "om_handle_state": (_U, [_M, _U, _U, POINTER(State)]),
    "om_handle": (_U, [_M, _U, _U, POINTER(Entry)]),
    "om_query_handle": (_U, [_M, _U, _U, POINTER(HandleInfo)]),
    "om_set_object_data": (_U, [_M, _U, _U, c_uint64]),
    "om_set_thread_data": (_U, [_M, _U, c_uint64]),
    "om_set_process_data": (_U, [_M, _U, c_uint64]),
    "om_object_data": (c_uint64, [_M, _U, _U]),
    "om_thread_data": (c_uint64, [_M, _U]),
    "om_process_data": (c_uint64, [_M, _U]),
    "om_next_object": (_U, [_M, _U, POINTER(Object)]),
    "om_next_handle": (_U, [_M, _U, _U, POINTER(Entry)]),
    "om_session_of": (_U, [_M, _U, POINTER(_U)]),
    "om_objects_waited_for": (_U, [_M, _U, POINTER(_Pending), POINTER(Object), _Z, POINTER(_Z)]),
    "om_counts": (_U, [_M, _U, _U, POINTER(References)]),
    "om_reap": (_U, [_M, _U, POINTER(Reaping)]),
    "om_take_ended": (_U, [_M, POINTER(Reaping), _Z, POINTER(_Z)]),
    "om_directory_at": (_U, [_M, _Z, POINTER(c_char), _Z, POINTER(_Row)]),
    "om_find": (_U, [_M, _U, ctypes.c_char_p, _Z, POINTER(HandleInfo)]),
    "om_name_of": (_U, [_M, _U, _U, POINTER(c_char), _Z, POINTER(_Row)]),
    "om_record": (_U, [_M, _B]),
    "om_take_record": (_U, [_M, POINTER(c_char), _Z, POINTER(_Z)]),
    "om_script": (_U, [POINTER(Limits), ctypes.c_char_p, _Z, POINTER(c_char), _Z, POINTER(_Z)]),
    "om_dump": (_U, [_M, POINTER(c_char), _Z, POINTER(_Z)]),
    "om_save": (_U, [_M, c_void_p, _Z, POINTER(_Z)]),
    "om_load": (_U, [c_void_p, _Z, _M]),
    "om_reader_new": (_U, [_M, _R]),
    "om_reader_free": (None, [_Reader]),
    "om_reader_pin": (_U, [_R, _U, _U]),
    "om_reader_unpin": (_U, [_R, _U, _U]),
    "om_reader_describe": (_U, [_R, _U, _U, POINTER(Descriptor)]),
    "om_inspect": (_U, [_M, _R, _U, _U, POINTER(Description)]),
    "om_reader_holds": (_B, [_R, _U, _U]),
    "om_is_pending": (_B, [_M, _U]),
    "om_now": (c_uint64, [_M]),
    "om_next_process": (_U, [_M, _U]),
    "om_next_thread": (_U, [_M, _U, _U]),
    "om_process_of": (_U, [_M, _U]),
    "om_wait_of": (_U, [_M, _U]),
    "om_directory_len": (_Z, [_M]),
    "om_version": (_U, []),
}


def _found():
    here = pathlib.Path(__file__).resolve().parent
    beside = here / "../../../../lib/libobman.so.1"
    if here.match("share/obman/bindings/python") and beside.exists():
        return str(beside)
    return ctypes.util.find_library("obman") or "libobman.so.1"


def _loaded():
    library = ctypes.CDLL(os.environ.get("OBMAN") or _found())
    for name, (result, parameters) in FUNCTIONS.items():
        function = getattr(library, name)
        function.restype, function.argtypes = result, parameters
    return library


_c = _loaded()


def version():
    """Which release the library is of, as VERSION says it of this module."""
    return _c.om_version()


def _done(status):
    if status != SUCCESS:
        raise Error(status)


def _told(kind, call, *words):
    """The value that a call writes behind its other parameters."""
    value = kind()
    _done(call(*words, value))
    return value.value if kind in (c_uint32, c_uint64) else value


def _waited(status, answer):
    if status == ERROR_IO_PENDING:
        return Pending(answer.value)
    _done(status)
    return Over(answer.value)


def _bytes(name):
    return name.encode() if isinstance(name, str) else bytes(name)


def _taken(call, kind, most):
    """What a call hands out in one block."""
    block, count = (kind * most)(), c_size_t()
    _done(call(block, most, count))
    return [kind.from_buffer_copy(one) for one in block[: count.value]]


class _Owner:
    """What is freed at its end, once."""

    def close_all(self):
        if self._at is not None:
            self._free(self._at)
            self._at = None

    def __enter__(self):
        return self

    def __exit__(self, *why):
        self.close_all()

    def __del__(self):
        if getattr(self, "_at", None) is not None:
            self.close_all()


class Reader(_Owner):
    """Who pins objects on any thread, without their manager. It lets all go at its end."""

    _free = staticmethod(_c.om_reader_free)

    def __init__(self, manager):
        self._at = None
        self.manager, at = manager, _Reader()
        _done(_c.om_reader_new(manager._at, at))
        self._at = at

    def pin(self, o):
        """Pins an object's slot once more, in one try: 170 where another thread changed it meanwhile."""
        _done(_c.om_reader_pin(self._at, o.slot, o.generation))

    def unpin(self, o):
        """Lets one pin go."""
        _done(_c.om_reader_unpin(self._at, o.slot, o.generation))

    def holds(self, o):
        """Whether it pins an object."""
        return _c.om_reader_holds(self._at, o.slot, o.generation)

    def describe(self, o):
        """What never changes of an object that it pins."""
        return _told(Descriptor, _c.om_reader_describe, self._at, o.slot, o.generation)


class Manager(_Owner):
    """A manager, which ends with its context. One call at a time: threads keep a lock round it. With `reuse` its numbers come back: a new
    process or thread has the least number that no live one has, and a wait is called by the number of its thread. With `repeats` a handle
    may stand twice in a wait for any, as NT takes it."""

    _free = staticmethod(_c.om_free)

    def __init__(self, limits=None, reuse=False, repeats=False):
        self._at = None
        at = _Manager()
        _done(_c.om_new_with(limits or default_limits(), reuse, repeats, at))
        self._at = at

    @classmethod
    def load(cls, saved):
        """The manager of a savestate. Other bytes are refused with the error 13."""
        saved, at, m = bytes(saved), _Manager(), cls.__new__(cls)
        m._at = None
        _done(_c.om_load(saved, len(saved), at))
        m._at = at
        return m

    def spawn(self, session):
        """A guest's process begins in a session, with its first thread."""
        return _told(Member, _c.om_spawn, self._at, session)

    def child(self, thread, inherit):
        """A thread begins a process, which with `inherit` has its inheritable handles."""
        return _told(Member, _c.om_child, self._at, thread, inherit)

    def child_with(self, thread, handles):
        """The same with those of the inheritable handles alone that are listed; 87 where one isn't there or isn't inheritable."""
        there = {it.handle for it in self.handles(self.process_of(thread) or 0) if it.flags & HANDLE_FLAG_INHERIT}
        listed = {it & ~3 for it in handles}
        if not listed <= there:
            raise Error(87)
        made = self.child(thread, True)
        for other in sorted(there - listed):
            self.set_handle_flags(made.thread, other, HANDLE_FLAG_PROTECT_FROM_CLOSE, 0)
            self.close(made.thread, other)
        return made

    def thread(self, process):
        """A thread begins in a process."""
        return _told(c_uint32, _c.om_thread, self._at, process)

    def end_thread(self, thread):
        """A thread ends, and with the last one its process."""
        _done(_c.om_end_thread(self._at, thread))

    def exit(self, process):
        """A process ends."""
        _done(_c.om_exit(self._at, process))

    def _created(self, call, thread, name, inherit, access, grant, *words):
        opening, text = Opening(), _bytes(name or "")
        making = _Making(access or 0, grant or 0, name is not None, inherit, access is not None, grant is not None)
        status = call(self._at, thread, making, text, len(text), *words, opening)
        if status != ERROR_ALREADY_EXISTS:
            _done(status)
        opening.existed = status == ERROR_ALREADY_EXISTS
        return opening

    def create_event(self, thread, name=None, manual=False, set=False, inherit=False, access=None, grant=None):
        """A new event and a handle to it; `existed` says whether one had the name already."""
        return self._created(_c.om_create_event, thread, name, inherit, access, grant, manual, set)

    def create_mutex(self, thread, name=None, owned=False, inherit=False, access=None, grant=None):
        """A new mutex, as create_event."""
        return self._created(_c.om_create_mutex, thread, name, inherit, access, grant, owned)

    def create_semaphore(self, thread, initial, max, name=None, inherit=False, access=None, grant=None):
        """A new semaphore, as create_event."""
        return self._created(_c.om_create_semaphore, thread, name, inherit, access, grant, initial, max)

    def create_timer(self, thread, name=None, manual=False, inherit=False, access=None, grant=None):
        """A new timer, as create_event."""
        return self._created(_c.om_create_timer, thread, name, inherit, access, grant, manual)

    def create_host(self, thread, object_type, name=None, manual=False, signaled=False, inherit=False, access=None, grant=None):
        """A new object of the host's own, such as a thread or a file, of a type from 0 to 255 that the host chooses, as create_event."""
        return self._created(_c.om_create_host, thread, name, inherit, access, grant, object_type, manual, signaled)

    def _opened(self, call, thread, access, inherit, name):
        text = _bytes(name)
        return _told(Opening, call, self._at, thread, access, inherit, text, len(text))

    def open_event(self, thread, access, inherit, name):
        """A handle to the event of a name."""
        return self._opened(_c.om_open_event, thread, access, inherit, name)

    def open_mutex(self, thread, access, inherit, name):
        """A handle to the mutex of a name."""
        return self._opened(_c.om_open_mutex, thread, access, inherit, name)

    def open_semaphore(self, thread, access, inherit, name):
        """A handle to the semaphore of a name."""
        return self._opened(_c.om_open_semaphore, thread, access, inherit, name)

    def open_timer(self, thread, access, inherit, name):
        """A handle to the timer of a name."""
        return self._opened(_c.om_open_timer, thread, access, inherit, name)

    def open_host(self, thread, object_type, access, inherit, name):
        """A handle to the object of the host's own of a type and a name."""
        text = _bytes(name)
        return _told(Opening, _c.om_open_host, self._at, thread, object_type, access, inherit, text, len(text))

    def duplicate(self, thread, source, handle, target, access=0, inherit=False, options=0):
        """A handle of the process `target` to what a handle of the process `source` names."""
        return _told(Opening, _c.om_duplicate, self._at, thread, source, handle, target, access, inherit, options)

    def close(self, thread, handle):
        """Closes a handle."""
        _done(_c.om_close(self._at, thread, handle))

    def handle_flags(self, thread, handle):
        """A handle's flags."""
        return _told(c_uint32, _c.om_handle_flags, self._at, thread, handle)

    def set_handle_flags(self, thread, handle, mask, flags):
        """The flags in the mask become what they are in `flags`."""
        _done(_c.om_set_handle_flags(self._at, thread, handle, mask, flags))

    def resolve(self, process, handle):
        """What a handle of a process names."""
        return _told(Object, _c.om_resolve, self._at, process, handle)

    def handle(self, process, handle):
        """What a handle of a process names, its rights and its flags."""
        return _told(Entry, _c.om_handle, self._at, process, handle)

    def set_event(self, thread, handle):
        """Sets an event."""
        _done(_c.om_set_event(self._at, thread, handle))

    def reset_event(self, thread, handle):
        """Resets an event."""
        _done(_c.om_reset_event(self._at, thread, handle))

    def pulse_event(self, thread, handle):
        """Sets an event, so that who waits for it may go on, and resets it."""
        _done(_c.om_pulse_event(self._at, thread, handle))

    def release_semaphore(self, thread, handle, count=1):
        """Raises a semaphore's count, and says what it was."""
        return _told(c_uint32, _c.om_release_semaphore, self._at, thread, handle, count)

    def release_mutex(self, thread, handle):
        """Releases a mutex once."""
        _done(_c.om_release_mutex(self._at, thread, handle))

    def signal_host(self, object, signaled=True):
        """Signals an object of the host's own, or resets it."""
        _done(_c.om_signal_host(self._at, object.slot, object.generation, signaled))

    def set_timer(self, thread, handle, due):
        """Sets a timer for a moment in units of 100 ns, or below 0 for so many units from now."""
        _done(_c.om_set_timer(self._at, thread, handle, due))

    def set_periodic_timer(self, thread, handle, due, period):
        """The same with a period in milliseconds, 0 for none: it is signaled each time, and due again."""
        _done(_c.om_set_periodic_timer(self._at, thread, handle, due, period))

    def cancel_timer(self, thread, handle):
        """Takes a timer's moment away, and its period."""
        _done(_c.om_cancel_timer(self._at, thread, handle))

    def tick(self, now):
        """It is this moment now, in units of 100 ns."""
        _done(_c.om_tick(self._at, now))

    def advance(self, now):
        """It is this moment now, by a tick to each moment before it at which something is due, in their order, and one to it."""
        _done(_c.om_advance(self._at, now))

    def now(self):
        """The moment of the last tick."""
        return _c.om_now(self._at)

    def limits(self):
        """Those with which it was made, or those of the manager that was saved."""
        return _told(Limits, _c.om_limits_of, self._at)

    def room(self, process=0):
        """What can still come before a call is refused for want of it: slots, numbers of processes and threads, and handles of a process."""
        return _told(Room, _c.om_room_of, self._at, process)

    def next_due(self):
        """The next moment that a tick can reach at which a timer or a wait is due, or None."""
        moment = c_uint64()
        return moment.value if _c.om_next_due(self._at, moment) == SUCCESS else None

    def wait(self, thread, handles, all=False, milliseconds=INFINITE):
        """A thread waits for any or all of 1 to 64 objects: `Over` with a code, or `Pending` with the wait's number, which is the thread's with
        `reuse`."""
        answer = c_uint32()
        return _waited(_c.om_wait(self._at, thread, all, milliseconds, (c_uint32 * max(1, len(handles)))(*handles), len(handles), answer), answer)

    def wait_until(self, thread, handles, due=FOREVER, all=False):
        """The same until a moment in units of 100 ns, or below 0 for so many units from now, and for good until FOREVER."""
        answer = c_uint32()
        return _waited(_c.om_wait_until(self._at, thread, all, due, (c_uint32 * max(1, len(handles)))(*handles), len(handles), answer), answer)

    def signal_and_wait(self, thread, signal, handle, due=FOREVER):
        """Signals the object of one handle and waits for that of another until such a moment, as one call."""
        answer = c_uint32()
        return _waited(_c.om_signal_and_wait(self._at, thread, signal, handle, due, answer), answer)

    def sleep(self, thread, due):
        """Waits for nothing until such a moment."""
        answer = c_uint32()
        return _waited(_c.om_sleep(self._at, thread, due, answer), answer)

    def wait_result(self, wait):
        """Takes the answer of one wait, as wait."""
        answer = c_uint32()
        return _waited(_c.om_wait_result(self._at, wait, answer), answer)

    def expire(self, wait):
        """A pending wait's time is up."""
        _done(_c.om_expire(self._at, wait))

    def alert(self, wait):
        """A pending wait ends for what was queued to its thread, as an alertable one does."""
        _done(_c.om_alert(self._at, wait))

    def is_pending(self, wait):
        """Whether a wait is pending."""
        return _c.om_is_pending(self._at, wait)

    def answers(self):
        """Takes the answers of all waits that were answered, in the order in which they began."""
        while block := _taken(lambda *to: _c.om_take_answered(self._at, *to), Answer, 32):
            yield from block

    def ended(self):
        """Takes back the slots of all objects that ended, by rising slot; those that are pinned are told too."""
        most, freed = 32, []
        while True:
            block = _taken(lambda *to: _c.om_take_ended(self._at, *to), Reaping, most)
            held = [one for one in block if one.outcome == HELD]
            freed += [one for one in block if one.outcome != HELD]
            if len(block) < most:
                return sorted(freed + held, key=lambda one: one.object.slot)
            most = 32 + 2 * len(held)

    def reap(self, slot):
        """Takes back one slot."""
        return _told(Reaping, _c.om_reap, self._at, slot)

    def card(self, o):
        """What an object was created as."""
        return _told(Description, _c.om_card, self._at, o.slot, o.generation)

    def state(self, o):
        """What state an object is in."""
        return _told(State, _c.om_state, self._at, o.slot, o.generation)

    def handle_state(self, process, handle):
        """What state the object is in that a handle of a process names: in front of a call, what was before."""
        return _told(State, _c.om_handle_state, self._at, process, handle)

    def query_handle(self, process, handle):
        """What a handle of a process names, with what the host keeps there."""
        return _told(HandleInfo, _c.om_query_handle, self._at, process, handle)

    def set_object_data(self, o, data):
        """Keeps 64 bits of the host's own at an object."""
        _done(_c.om_set_object_data(self._at, o.slot, o.generation, data))

    def set_thread_data(self, thread, data):
        """Keeps 64 bits of the host's own at a thread."""
        _done(_c.om_set_thread_data(self._at, thread, data))

    def set_process_data(self, process, data):
        """Keeps 64 bits of the host's own at a process."""
        _done(_c.om_set_process_data(self._at, process, data))

    def object_data(self, o):
        """What the host keeps at an object, or 0."""
        return _c.om_object_data(self._at, o.slot, o.generation)

    def thread_data(self, thread):
        """What the host keeps at a thread, or 0."""
        return _c.om_thread_data(self._at, thread)

    def process_data(self, process):
        """What the host keeps at a process, or 0."""
        return _c.om_process_data(self._at, process)

    def counts(self, o):
        """What refers to an object."""
        return _told(References, _c.om_counts, self._at, o.slot, o.generation)

    def session_of(self, process):
        """The session of a process."""
        return _told(c_uint32, _c.om_session_of, self._at, process)

    def process_of(self, thread):
        """The process of a live thread, or None."""
        return _c.om_process_of(self._at, thread) or None

    def wait_of(self, thread):
        """A thread's wait that is pending, or whose answer wasn't taken, or None."""
        return _c.om_wait_of(self._at, thread) or None

    def objects_waited_for(self, wait):
        """What a pending wait is for, with its objects in the order of the handles, or None."""
        pending, objects, count = _Pending(), (Object * MAXIMUM_WAIT_OBJECTS)(), c_size_t()
        if _c.om_objects_waited_for(self._at, wait, pending, objects, MAXIMUM_WAIT_OBJECTS, count) != SUCCESS:
            return None
        deadline = pending.deadline if pending.has_deadline else None
        return WaitedFor(pending.thread, pending.all, deadline, [Object.from_buffer_copy(o) for o in objects[: count.value]])

    def processes(self):
        """All live processes, by rising number."""
        process = 0
        while process := _c.om_next_process(self._at, process):
            yield process

    def threads(self, process):
        """All live threads of a process, by rising number."""
        thread = 0
        while thread := _c.om_next_thread(self._at, process, thread):
            yield thread

    def handles(self, process):
        """All handles of a process, by rising value."""
        entry = Entry()
        while _c.om_next_handle(self._at, process, entry.handle, entry) == SUCCESS:
            yield Entry.from_buffer_copy(entry)

    def objects(self):
        """All objects, by rising slot."""
        o, slot = Object(), 0
        while _c.om_next_object(self._at, slot, o) == SUCCESS:
            slot = o.slot + 1
            yield Object.from_buffer_copy(o)

    def names(self):
        """All names, in the order in which their objects were made."""
        base, row = ctypes.create_string_buffer(NAME_MOST), _Row()
        for at in range(_c.om_directory_len(self._at)):
            _done(_c.om_directory_at(self._at, at, base, NAME_MOST, row))
            yield Name(Object.from_buffer_copy(row.object), row.session, base.raw[: row.length])

    def find(self, session, name):
        """What has a name in a session, without an open: as a handle with all rights that an open can get."""
        text = _bytes(name)
        return _told(HandleInfo, _c.om_find, self._at, session, text, len(text))

    def name_of(self, o):
        """The name of an object, as long as it has handles, or None where it has none."""
        base, row = ctypes.create_string_buffer(NAME_MOST), _Row()
        _done(_c.om_name_of(self._at, o.slot, o.generation, base, NAME_MOST, row))
        return Name(o, row.session, base.raw[: row.length]) if row.length else None

    def record(self, on=True):
        """Records each call that changes something or may be refused from now on, or no more."""
        _done(_c.om_record(self._at, on))

    def recorded(self):
        """Takes what was recorded since: lines of a script, each call with its answer behind # in the next line."""
        lines, written, all_of_them = ctypes.create_string_buffer(16 * LINE_MOST), c_size_t(1), b""
        while written.value:
            _done(_c.om_take_record(self._at, lines, len(lines), written))
            all_of_them += lines.raw[: written.value]
        return all_of_them

    def save(self):
        """The whole manager as bytes, from which `load` makes it again; but for what is pinned and recorded."""
        return self._whole(_c.om_save)

    def dump(self):
        """All that the manager holds, as lines that a person reads: processes, threads and their waits, handles, objects, deadlocks."""
        return self._whole(_c.om_dump).decode()

    def _whole(self, call):
        written, most = c_size_t(), 0
        while True:
            told = ctypes.create_string_buffer(most)
            status = call(self._at, told, most, written)
            if status != 122:
                _done(status)
                return told.raw[: written.value]
            most = written.value

    def reader(self):
        """A reader, which pins objects on any thread without this manager."""
        return Reader(self)

    def inspect(self, reader, o):
        """What an object that a reader of this manager pins was created as, also when it has ended."""
        if reader.manager is not self:
            raise Error(87)
        return _told(Description, _c.om_inspect, self._at, reader._at, o.slot, o.generation)


def script(text, limits=None):
    """The answers of a whole script over a manager of its own, as the program `obman` gives them."""
    text, written, most = _bytes(text), c_size_t(), 2 * len(text) + 256
    while True:
        answers = ctypes.create_string_buffer(most)
        status = _c.om_script(limits or default_limits(), text, len(text), answers, most, written)
        if status != 122:
            _done(status)
            return answers.raw[: written.value]
        most = written.value
