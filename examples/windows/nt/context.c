/* Registers as guests see them (CONTEXT), exceptions, and APCs: each is code of ntdll that runs next in a thread, over what is put onto its stack. */
#include "nt.h"

#include <stdlib.h>
#include <string.h>

enum {
    /* what KiUserExceptionDispatcher finds on the stack: CONTEXT, CONTEXT_EX, EXCEPTION_RECORD, and the whole */
    EXTENDED_AT = CONTEXT_SIZE,
    RECORD_AT = 0x4F0,
    EXCEPTION_FRAME = 0x5B0,
    /* and KiUserApcDispatcher: room for four arguments, the routine, CONTEXT */
    ROUTINE_AT = 0x20,
    CONTEXT_AT = 0x30,
    APC_FRAME = 0x510,
    EDITABLE_FLAGS = 0xCD5, /* of EFLAGS, and those that are always set */
    FIXED_FLAGS = 0x202,
    TRAP_FLAGS = 0x40500
};

static const int in_context[16] = {RAX, RCX, RDX, RBX, RSP, RBP, RSI, RDI, R8, R9, R10, R11, R12, R13, R14, R15};

static void set(uint8_t *context, int at, uint64_t value, size_t size) {
    memcpy(context + at, &value, size);
}

static uint64_t value(const uint8_t *context, int at, size_t size) {
    uint64_t found = 0;
    memcpy(&found, context + at, size);
    return found;
}

static void put_floats_into(const registers *r, uint8_t *context) {
    uint8_t *f = context + CONTEXT_FLOATS, tags = 0;
    for (int i = 0; i < 8; i++) {
        tags |= (uint8_t)((r->float_tags >> 2 * i & 3) != 3 ? 1 << i : 0);
        memcpy(f + 0x20 + 16 * i, r->floats[i], 10);
    }
    set(context, CONTEXT_MXCSR, r->vector_control, 4);
    set(f, 0x00, r->float_control, 2);
    set(f, 0x02, r->float_status, 2);
    set(f, 0x04, tags, 1);
    set(f, 0x18, r->vector_control, 4);
    set(f, 0x1C, 0xFFFF, 4);
    memcpy(f + 0xA0, r->vectors, sizeof r->vectors);
}

/* What the flags name of a thread's registers. */
static void put_context(thread *t, uint8_t *context, uint32_t flags) {
    uint16_t code = 0, data = 0;
    uc_reg_read(t->of->engine, UC_X86_REG_CS, &code);
    uc_reg_read(t->of->engine, UC_X86_REG_SS, &data);
    set(context, CONTEXT_FLAGS, flags, 4);
    if (flags & HAS_CONTROL) {
        set(context, CONTEXT_CS, code, 2);
        set(context, CONTEXT_SS, data, 2);
        set(context, CONTEXT_EFLAGS, t->now.whole[FLAGS], 4);
        set(context, CONTEXT_RSP, t->now.whole[RSP], 8);
        set(context, CONTEXT_RIP, t->now.whole[RIP], 8);
    }
    for (int i = 0; i < 16 && flags & HAS_INTEGERS; i++) {
        if (in_context[i] != RSP) {
            set(context, CONTEXT_RAX + 8 * i, t->now.whole[in_context[i]], 8);
        }
    }
    if (flags & HAS_SEGMENTS) {
        set(context, CONTEXT_DS, data, 2);
        set(context, CONTEXT_ES, data, 2);
        set(context, CONTEXT_FS, 0, 2);
        set(context, CONTEXT_GS, data, 2);
    }
    if (flags & HAS_FLOATS) {
        take_floats(t);
        put_floats_into(&t->now, context);
    }
}

static void take_floats_from(registers *r, const uint8_t *context) {
    const uint8_t *f = context + CONTEXT_FLOATS;
    r->float_control = (uint16_t)value(f, 0x00, 2);
    r->float_status = (uint16_t)value(f, 0x02, 2);
    r->vector_control = (uint32_t)value(f, 0x18, 4) & 0xFFBF;
    r->float_tags = 0;
    for (int i = 0; i < 8; i++) {
        r->float_tags |= (uint16_t)(f[4] >> i & 1 ? 0 : 3 << 2 * i);
        memcpy(r->floats[i], f + 0x20 + 16 * i, 10);
    }
    memcpy(r->vectors, f + 0xA0, sizeof r->vectors);
}

static void take_context(thread *t, const uint8_t *context) {
    uint32_t flags = (uint32_t)value(context, CONTEXT_FLAGS, 4);
    if (flags & HAS_CONTROL) {
        t->now.whole[FLAGS] = (value(context, CONTEXT_EFLAGS, 4) & EDITABLE_FLAGS) | FIXED_FLAGS;
        t->now.whole[RSP] = value(context, CONTEXT_RSP, 8);
        t->now.whole[RIP] = value(context, CONTEXT_RIP, 8);
    }
    for (int i = 0; i < 16 && flags & HAS_INTEGERS; i++) {
        if (in_context[i] != RSP) {
            t->now.whole[in_context[i]] = value(context, CONTEXT_RAX + 8 * i, 8);
        }
    }
    if (flags & HAS_FLOATS) {
        take_floats_from(&t->now, context);
        put_floats(t);
    }
}

/* With which a thread begins: RtlUserThreadStart (ENTRY, WITH). */
void first_context(uint8_t *context, uint64_t stack, uint64_t start, uint64_t entry, uint64_t with) {
    uint16_t code = 0, data = 0;
    uc_reg_read(in->engine, UC_X86_REG_CS, &code);
    uc_reg_read(in->engine, UC_X86_REG_SS, &data);
    set(context, CONTEXT_FLAGS, CONTEXT_FULL, 4);
    set(context, CONTEXT_MXCSR, 0x1F80, 4);
    set(context, CONTEXT_CS, code, 2);
    set(context, CONTEXT_SS, data, 2);
    set(context, CONTEXT_EFLAGS, 0x200, 4);
    set(context, CONTEXT_RCX, entry, 8);
    set(context, CONTEXT_RDX, with, 8);
    set(context, CONTEXT_RSP, stack, 8);
    set(context, CONTEXT_RIP, start, 8);
    set(context, CONTEXT_FLOATS, 0x27F, 2);
    set(context, CONTEXT_FLOATS + 0x18, 0x1F80, 4);
}

/* ---- Exceptions ---- */

/* Has ntdll tell a thread's handlers of an exception. Without a stack for it the process ends, as Windows ends it. */
static void dispatch(thread *t, const uint8_t *record, const uint8_t *context) {
    static const int32_t extended[6] = {-CONTEXT_SIZE, CONTEXT_SIZE, -CONTEXT_SIZE, CONTEXT_SIZE, 25, 0};
    uint64_t stack = (t->now.whole[RSP] & ~(uint64_t)15) - EXCEPTION_FRAME;
    uint8_t *frame = bytes_if(stack, EXCEPTION_FRAME);
    if (frame == NULL) {
        end_process(t->of, (uint32_t)value(record, RECORD_CODE, 4));
        return;
    }
    memcpy(frame, context, CONTEXT_SIZE);
    memcpy(frame + EXTENDED_AT, extended, sizeof extended);
    memcpy(frame + RECORD_AT, record, RECORD_SIZE);
    t->now.whole[RSP] = stack;
    t->now.whole[RIP] = t->of->exception_dispatcher;
    t->now.whole[FLAGS] &= ~(uint64_t)TRAP_FLAGS;
}

/* An exception of the processor. */
void raise_exception(thread *t, uint32_t code, const uint64_t *information, uint32_t count) {
    uint8_t context[CONTEXT_SIZE] = {0}, record[RECORD_SIZE] = {0};
    put_context(t, context, CONTEXT_ALL);
    set(record, RECORD_CODE, code, 4);
    set(record, RECORD_ADDRESS, t->now.whole[RIP], 8);
    set(record, RECORD_COUNT, count, 4);
    for (uint32_t i = 0; i < count; i++) {
        set(record, RECORD_INFORMATION + 8 * (int)i, information[i], 8);
    }
    dispatch(t, record, context);
}

/* A guest's own: of its first chance it tells its handlers; of its last, its process ends. */
uint32_t NtRaiseException(void) {
    uint8_t context[CONTEXT_SIZE], record[RECORD_SIZE];
    memcpy(record, bytes_at(arg(0), RECORD_SIZE), RECORD_SIZE);
    memcpy(context, bytes_at(arg(1), CONTEXT_SIZE), CONTEXT_SIZE);
    has_set_registers = true;
    if ((uint8_t)arg(2) == 0) {
        end_process(in, (uint32_t)value(record, RECORD_CODE, 4));
    } else {
        take_context(current, context);
        dispatch(current, record, context);
    }
    return STATUS_SUCCESS;
}

uint32_t NtContinue(void) {
    bool alertable = (uint8_t)arg(1) != 0;
    take_context(current, bytes_at(arg(0), CONTEXT_SIZE));
    has_set_registers = true;
    if (alertable && current->apcs != NULL) {
        run_apc(current, (uint32_t)current->now.whole[RAX]);
    }
    return STATUS_SUCCESS;
}

uint32_t NtGetContextThread(void) {
    thread *t;
    uint32_t status = thread_by(arg(0), 0x8, NULL, &t); /* THREAD_GET_CONTEXT */
    uint8_t *context = bytes_at(arg(1), CONTEXT_SIZE);
    if (status == STATUS_SUCCESS && t == NULL) {
        return STATUS_ACCESS_DENIED;
    }
    if (status == STATUS_SUCCESS) {
        put_context(t, context, (uint32_t)get(arg(1) + CONTEXT_FLAGS, 4));
    }
    return status;
}

uint32_t NtSetContextThread(void) {
    thread *t;
    uint32_t status = thread_by(arg(0), 0x10, NULL, &t); /* THREAD_SET_CONTEXT */
    const uint8_t *context = bytes_at(arg(1), CONTEXT_SIZE);
    if (status == STATUS_SUCCESS && t == NULL) {
        return STATUS_ACCESS_DENIED;
    }
    if (status == STATUS_SUCCESS) {
        take_floats(t);
        take_context(t, context);
        has_set_registers = t == current;
    }
    return status;
}

/* ---- APCs ---- */

/* The first of a thread's APCs runs next in it, and NtContinue goes on behind the call that answered so, or with the next one. */
void run_apc(thread *t, uint32_t status) {
    process *before = in;
    apc first = *t->apcs;
    uint64_t stack = (t->now.whole[RSP] & ~(uint64_t)15) - APC_FRAME;
    in = t->of;
    uint8_t *frame = bytes_if(stack, APC_FRAME);
    free(t->apcs);
    t->apcs = first.next;
    t->now.whole[RAX] = status;
    if (frame == NULL) {
        end_process(t->of, STATUS_STACK_OVERFLOW);
    } else {
        put_context(t, frame + CONTEXT_AT, CONTEXT_FULL);
        set(frame, ROUTINE_AT, first.routine, 8);
        t->now.whole[RBP] = value(frame + CONTEXT_AT, CONTEXT_RBP, 8);
        t->now.whole[RSP] = stack - 8;
        t->now.whole[RIP] = t->of->apc_dispatcher;
        t->now.whole[RCX] = stack + CONTEXT_AT;
        t->now.whole[RDX] = first.arguments[0];
        t->now.whole[R8] = first.arguments[1];
        t->now.whole[R9] = first.arguments[2];
    }
    in = before;
}

/* Behind those that a thread has. A wait of it that is alertable ends. */
void queue_apc(thread *t, uint64_t timer, uint64_t routine, uint64_t a, uint64_t b, uint64_t c) {
    apc *made = calloc(1, sizeof *made), **end = &t->apcs;
    if (made == NULL) {
        stop("no memory");
    }
    *made = (apc){.routine = routine, .arguments = {a, b, c}, .timer = timer};
    while (*end != NULL) {
        end = &(*end)->next;
    }
    *end = made;
    if (t->waits != RUNS && t->alertable) {
        wake(t, STATUS_USER_APC);
    }
}

/* A timer's APC doesn't run any more. */
void cancel_apc(thread *t, uint64_t timer) {
    apc **at = &t->apcs;
    while (*at != NULL && (*at)->timer != timer) {
        at = &(*at)->next;
    }
    if (*at != NULL) {
        apc *found = *at;
        *at = found->next;
        free(found);
    }
}

uint32_t NtQueueApcThread(void) {
    thread *t;
    uint32_t status = thread_by(arg(0), 0x10, NULL, &t); /* THREAD_SET_CONTEXT */
    if (status != STATUS_SUCCESS || t == NULL) {
        return status != STATUS_SUCCESS ? status : STATUS_UNSUCCESSFUL; /* it has ended */
    }
    if (arg(1) != 0) {
        queue_apc(t, 0, arg(1), arg(2), arg(3), arg(4));
    }
    return STATUS_SUCCESS;
}

uint32_t NtTestAlert(void) {
    current->has_apc = current->apcs != NULL;
    return STATUS_SUCCESS;
}
