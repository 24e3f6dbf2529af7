/* Where in Windows' own structures lies what the host reads or writes: bytes from their beginning, for 64 bits. CONTEXT, EXCEPTION_RECORD and the files of
 * programs are in Learn and winnt.h; PEB, TEB, RTL_USER_PROCESS_PARAMETERS and OBJECT_ATTRIBUTES in Learn and winternl.h, and what is reserved there in Geoff
 * Chappell's studies (geoffchappell.com, "PEB and TEB"); KUSER_SHARED_DATA in Learn's ntddk.h. */
#ifndef LAYOUT_H
#define LAYOUT_H

enum {
    /* the head of a program's file */
    IMAGE_NEW_HEADER = 0x3C,
    IMAGE_SECTIONS_COUNT = 6,
    IMAGE_OPTIONAL_SIZE = 20,
    IMAGE_CHARACTERISTICS = 22,
    IMAGE_OPTIONAL = 24, /* what follows counts from there */
    OPTIONAL_ENTRY = 16,
    OPTIONAL_BASE = 24,
    OPTIONAL_OS_VERSION = 40,
    OPTIONAL_SUBSYSTEM_VERSION = 48,
    OPTIONAL_IMAGE_SIZE = 56,
    OPTIONAL_HEADERS_SIZE = 60,
    OPTIONAL_CHECKSUM = 64,
    OPTIONAL_SUBSYSTEM = 68,
    OPTIONAL_DLL_CHARACTERISTICS = 70,
    OPTIONAL_STACK_RESERVE = 72,
    OPTIONAL_STACK_COMMIT = 80,
    OPTIONAL_EXPORTS = 112,
    OPTIONAL_LEAST = 120,
    SECTION_HEADER = 40,
    HEAD = 0x400, /* so much of a file has all that */

    /* PEB */
    PEB_IMAGE_BASE = 0x10,
    PEB_PARAMETERS = 0x20,
    PEB_API_SET_MAP = 0x68,
    PEB_PROCESSORS = 0xB8,
    PEB_SECTION_TIMEOUT = 0xC0,
    PEB_HEAP_SIZES = 0xC8, /* reserve, commit, decommit of the whole, of a block */
    PEB_VERSION = 0x118,   /* major, minor, build, platform */
    PEB_SUBSYSTEM = 0x128, /* and its version */
    PEB_SESSION = 0x2C0,
    PEB_SIZE = 0x4000, /* with the debug channels of Wine's DLLs behind two pages */

    /* TEB */
    TEB_EXCEPTIONS = 0x00,
    TEB_STACK_BASE = 0x08,
    TEB_STACK_LIMIT = 0x10,
    TEB_SELF = 0x30,
    TEB_PROCESS = 0x40,
    TEB_THREAD = 0x48,
    TEB_PEB = 0x60,
    TEB_ACTIVATION_FRAMES = 0x290, /* and its list, which begins empty */
    TEB_ACTIVATION = 0x2C8,
    TEB_STATIC_TEXT = 0x1258, /* a UNICODE_STRING over what is behind it */
    TEB_STATIC_BUFFER = 0x1268,
    TEB_ALLOCATION_BASE = 0x1478,
    TEB_TLS_SLOTS = 0x1480,
    TEB_TLS_EXPANSION = 0x1780,
    TEB_SIZE = 0x4000, /* with the debug buffers of Wine's DLLs */

    /* RTL_USER_PROCESS_PARAMETERS */
    PARAMETERS_SIZES = 0x00, /* the most, and that */
    PARAMETERS_FLAGS = 0x08,
    PARAMETERS_NUMBERS = 0x10, /* console, console flags, standard handles .. and from 0x88 on the window */
    PARAMETERS_STANDARD = 0x20,
    PARAMETERS_DIRECTORY = 0x38,
    PARAMETERS_DLL_PATH = 0x50,
    PARAMETERS_IMAGE = 0x60,
    PARAMETERS_COMMAND = 0x70,
    PARAMETERS_ENVIRONMENT = 0x80,
    PARAMETERS_SHOW_WINDOW = 0xA8,
    PARAMETERS_TITLE = 0xB0,
    PARAMETERS_DESKTOP = 0xC0,
    PARAMETERS_SHELL = 0xD0,
    PARAMETERS_ENVIRONMENT_SIZE = 0x3F0,
    PARAMETERS_TEXTS = 0x410, /* behind the structure */

    /* OBJECT_ATTRIBUTES, whose flags are OBJ_INHERIT and OBJ_OPENIF */
    ATTRIBUTES_ROOT = 0x08,
    ATTRIBUTES_NAME = 0x10,
    ATTRIBUTES_FLAGS = 0x18,
    INHERIT = 0x02,
    OPEN_IF = 0x80,

    /* PS_ATTRIBUTE_LIST: its size, then attributes of 32 bytes, each a number, a size, a value */
    LIST_FIRST = 0x08,
    LIST_STEP = 0x20,
    LIST_CLIENT_ID = 0x10003,
    LIST_TEB = 0x10004,
    LIST_IMAGE_NAME = 0x20005,
    LIST_IMAGE_INFORMATION = 0x6,

    /* CONTEXT, and what of it CONTEXT.ContextFlags names */
    CONTEXT_FLAGS = 0x30,
    CONTEXT_MXCSR = 0x34,
    CONTEXT_CS = 0x38,
    CONTEXT_DS = 0x3A,
    CONTEXT_ES = 0x3C,
    CONTEXT_FS = 0x3E,
    CONTEXT_GS = 0x40,
    CONTEXT_SS = 0x42,
    CONTEXT_EFLAGS = 0x44,
    CONTEXT_RAX = 0x78,
    CONTEXT_RCX = 0x80,
    CONTEXT_RDX = 0x88,
    CONTEXT_RSP = 0x98,
    CONTEXT_RBP = 0xA0,
    CONTEXT_RIP = 0xF8,
    CONTEXT_FLOATS = 0x100, /* as FXSAVE stores them */
    CONTEXT_SIZE = 0x4D0,
    HAS_CONTROL = 1,
    HAS_INTEGERS = 2,
    HAS_SEGMENTS = 4,
    HAS_FLOATS = 8,
    CONTEXT_ALL = 0x10000F,
    CONTEXT_FULL = 0x10000B,

    /* EXCEPTION_RECORD */
    RECORD_CODE = 0x00,
    RECORD_ADDRESS = 0x10,
    RECORD_COUNT = 0x18,
    RECORD_INFORMATION = 0x20,
    RECORD_SIZE = 0x98,

    /* KUSER_SHARED_DATA */
    SHARED_TICK_MULTIPLIER = 0x04,
    SHARED_INTERRUPT_TIME = 0x08,
    SHARED_SYSTEM_TIME = 0x14,
    SHARED_WINDOWS = 0x30,
    SHARED_BUILD = 0x260, /* and the product's type, major, minor */
    SHARED_FEATURES = 0x274,
    SHARED_FREQUENCY = 0x300,
    SHARED_SYSTEM_CALL = 0x308,
    SHARED_TICKS = 0x320
};

#endif
