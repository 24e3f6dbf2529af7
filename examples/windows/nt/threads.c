/* Threads, whose turns have so many instructions; the clock; and the processor. A thread runs in its process's engine until its turn is over or it makes a
 * call. Behind each stop its whole registers are in `now`; its numbers of floating point and its vectors stay in the engine until another thread's turn comes
 * there. */
#include "nt.h"

#include <stdio.h>
#include <string.h>

om_manager om;
process processes[PROCESSES], *in;
thread threads[THREADS], *current = threads;
uint32_t threads_end;
uint64_t instructions, instructions_most, seed, idle, left;
bool ends_turn, goes_on;

static uint64_t stopped_at;        /* the block before which the engine stopped */
static uint64_t block_at;          /* the one that runs */
static uint64_t fault_address;
static int fault_kind = -1;        /* EXCEPTION_RECORD's: 0 to read, 1 to write, 8 to run; -1: none */
static int64_t interrupt = -1;     /* its number, or -1 */

/* ---- Registers ---- */

static const int whole[WHOLE] = {
    UC_X86_REG_RAX, UC_X86_REG_RBX, UC_X86_REG_RCX, UC_X86_REG_RDX, UC_X86_REG_RSI, UC_X86_REG_RDI, UC_X86_REG_RBP, UC_X86_REG_RSP, UC_X86_REG_R8,
    UC_X86_REG_R9,  UC_X86_REG_R10, UC_X86_REG_R11, UC_X86_REG_R12, UC_X86_REG_R13, UC_X86_REG_R14, UC_X86_REG_R15, UC_X86_REG_RIP, UC_X86_REG_EFLAGS,
};

typedef uc_err (*mover)(uc_engine *engine, int which, void *value);

static uc_err put_register(uc_engine *engine, int which, void *value) {
    return uc_reg_write(engine, which, value);
}

static void move_whole(thread *t, uc_err (*by)(uc_engine *engine, int *which, void **values, int count)) {
    void *at[WHOLE];
    for (int i = 0; i < WHOLE; i++) {
        at[i] = &t->now.whole[i];
    }
    by(t->of->engine, (int *)whole, at, WHOLE);
}

static uc_err put_batch(uc_engine *engine, int *which, void **values, int count) {
    return uc_reg_write_batch(engine, which, values, count);
}

static void move_floats(thread *t, mover by) {
    uc_engine *engine = t->of->engine;
    by(engine, UC_X86_REG_FPSW, &t->now.float_status); /* before the numbers, whose places it tells */
    by(engine, UC_X86_REG_FPCW, &t->now.float_control);
    by(engine, UC_X86_REG_FPTAG, &t->now.float_tags);
    by(engine, UC_X86_REG_MXCSR, &t->now.vector_control);
    for (int i = 0; i < 16; i++) {
        by(engine, UC_X86_REG_XMM0 + i, t->now.vectors[i]);
    }
    for (int i = 0; i < 8; i++) {
        by(engine, UC_X86_REG_FP0 + i, t->now.floats[i]);
    }
}

/* Has all of a thread's registers in `now`. */
void take_floats(thread *t) {
    if (t->of->loaded == t) {
        move_floats(t, uc_reg_read);
    }
}

/* `now` was changed: the engine takes all of it when the thread runs. */
void put_floats(thread *t) {
    if (t->of->loaded == t) {
        t->of->loaded = NULL;
    }
}

static void put_registers(thread *t) {
    thread *before = t->of->loaded;
    if (before != t) {
        if (before != NULL) {
            move_floats(before, uc_reg_read);
        }
        move_floats(t, put_register);
        uc_reg_write(t->of->engine, UC_X86_REG_GS_BASE, &t->block);
        t->of->loaded = t;
    }
    move_whole(t, put_batch);
}

/* ---- The clock ---- */

/* The guests' time: it passes with instructions, and goes on to what is due next where no thread can run. */
uint64_t now(void) {
    return BEGAN + idle + instructions / PER_UNIT;
}

/* Tells the library the time: what was due by now comes in the order of its moments, and then timers' routines. */
void tell_time(void) {
    must(om_advance(&om, now()), "the time");
    if (next_routine <= now()) {
        run_routines();
    }
}

static uint64_t next_moment(void) {
    uint64_t moment;
    bool is_due = om_next_due(&om, &moment) == OM_SUCCESS && moment < next_routine;
    return is_due ? moment : next_routine;
}

/* A KSYSTEM_TIME: the high half twice, so that a reader sees whether both are of one moment. */
static void put_moment(uint8_t *to, uint64_t moment) {
    uint32_t halves[3] = {(uint32_t)moment, (uint32_t)(moment >> 32), (uint32_t)(moment >> 32)};
    memcpy(to, halves, sizeof halves);
}

static void show_time(void) {
    uint8_t *shared = bytes_if(SHARED, PAGE);
    uint64_t since = now() - BEGAN + 10000000; /* as if the machine had begun a second before */
    if (shared == NULL) {
        return; /* a savestate that lies has none */
    }
    put_moment(shared + SHARED_INTERRUPT_TIME, since);
    put_moment(shared + SHARED_SYSTEM_TIME, now());
    put_moment(shared + SHARED_TICKS, since / 10000);
}

/* ---- What comes of a call ---- */

thread *thread_numbered(uint32_t number) {
    uint64_t place = om_thread_data(&om, number);
    return place == 0 || place > THREADS || threads[place - 1].number != number ? NULL : &threads[place - 1];
}

process *process_numbered(uint32_t number) {
    uint64_t place = om_process_data(&om, number);
    return place == 0 || place > PROCESSES || processes[place - 1].member.process != number ? NULL : &processes[place - 1];
}

/* Behind each call: whose waits were answered can go on, and what has ended is forgotten. */
void look_round(void) {
    static om_reaping ended[SLOTS]; /* a place for each that there can be, so that one call tells all */
    om_answer answers[16];
    size_t count;
    bool is_forgotten;
    do { /* what ends may end others, and waits */
        is_forgotten = false;
        om_take_ended(&om, ended, SLOTS, &count);
        for (size_t i = 0; i < count; i++) {
            is_forgotten |= forget(om_object_data(&om, ended[i].object.slot, ended[i].object.generation));
        }
    } while (is_forgotten);
    do {
        om_take_answered(&om, answers, 16, &count);
        for (size_t i = 0; i < count; i++) {
            answered(thread_numbered(answers[i].thread), answers[i].code);
        }
    } while (count == 16);
    write_trace();
}

/* ---- Turns ---- */

static uint32_t chance(void) {
    seed = seed * 6364136223846793005u + 1442695040888963407u;
    return (uint32_t)(seed >> 33);
}

static bool can_run(const thread *t) {
    return t->number != 0 && t->waits == RUNS && t->suspended == 0;
}

/* Gives one of the threads that can run a turn: mostly a short one, of 1 to 16,384 instructions. Whether there is one. */
static bool choose(void) {
    static uint32_t ready[THREADS];
    uint32_t count = 0;
    for (uint32_t i = 0; i < threads_end; i++) {
        if (can_run(&threads[i])) {
            ready[count++] = i;
        }
    }
    left = 0;
    if (count == 0) {
        return false;
    }
    current = &threads[ready[chance() % count]];
    uint32_t most = 1u << chance() % 15;
    left = 1 + chance() % most;
    return true;
}

/* ---- The processor ---- */

static bool is_call(uint64_t address) {
    return address - SYSTEM_CALL < PAGE;
}

/* Before each block: a call is served outside of here, and a turn that is over ends, or a run. */
static void on_block(uc_engine *engine, uint64_t address, uint32_t size, void *of) {
    (void)size;
    if (left == 0 || is_call(address) || instructions >= instructions_most) {
        stopped_at = address;
        uc_emu_stop(engine);
        return;
    }
    block_length *b = length_at(of, address);
    if (b->address != address) {
        uc_tb known;
        *b = (block_length){.address = address, .count = uc_ctl_request_cache(engine, address, &known) == UC_ERR_OK ? known.icount : 1};
    }
    block_at = address;
    instructions += b->count;
    left -= b->count < left ? b->count : left;
}

static bool on_fault(uc_engine *engine, uc_mem_type how, uint64_t address, int size, int64_t value, void *of) {
    (void)engine, (void)size, (void)value, (void)of;
    bool writes = how == UC_MEM_WRITE_UNMAPPED || how == UC_MEM_WRITE_PROT, runs = how == UC_MEM_FETCH_UNMAPPED || how == UC_MEM_FETCH_PROT;
    fault_address = address;
    fault_kind = writes ? 1 : runs ? 8 : 0;
    return false;
}

static void on_interrupt(uc_engine *engine, uint32_t number, void *of) {
    (void)of;
    interrupt = number;
    uc_emu_stop(engine);
}

/* An engine for the process whose memory is meant. */
void begin_engine(void) {
    uc_hook hook;
    if (uc_open(UC_ARCH_X86, UC_MODE_64, &in->engine) != UC_ERR_OK ||
        uc_hook_add(in->engine, &hook, UC_HOOK_BLOCK, (void *)on_block, in, 1, 0) != UC_ERR_OK ||
        uc_hook_add(in->engine, &hook, UC_HOOK_INTR, (void *)on_interrupt, in, 1, 0) != UC_ERR_OK ||
        uc_hook_add(in->engine, &hook, UC_HOOK_MEM_INVALID, (void *)on_fault, in, 1, 0) != UC_ERR_OK) {
        stop("no processor");
    }
}

/* An exception of the processor as Windows tells it. */
static void raise_interrupt(thread *t) {
    static const struct {
        uint32_t number, code, count;
    } all[] = {
        {0, STATUS_INTEGER_DIVIDE_BY_ZERO, 0}, {1, STATUS_SINGLE_STEP, 0},      {3, STATUS_BREAKPOINT, 1},
        {6, STATUS_ILLEGAL_INSTRUCTION, 0},    {13, STATUS_ACCESS_VIOLATION, 2},
    };
    uint64_t information[2] = {0, interrupt == 13 ? UINT64_MAX : 0};
    size_t i = 0;
    while (i < sizeof all / sizeof *all && all[i].number != interrupt) {
        i++;
    }
    if (interrupt == 3) {
        t->now.whole[RIP]--; /* to the instruction itself */
    }
    if (i < sizeof all / sizeof *all) {
        raise_exception(t, all[i].code, information, all[i].count);
    } else {
        raise_exception(t, STATUS_ILLEGAL_INSTRUCTION, NULL, 0);
    }
}

static void raise_fault(thread *t, uc_err error) {
    uint64_t information[2] = {(uint64_t)fault_kind, fault_address};
    if (fault_kind >= 0) {
        t->now.whole[RIP] = fault_kind == 8 ? fault_address : failed_at(t, block_at, fault_address);
        raise_exception(t, STATUS_ACCESS_VIOLATION, information, 2);
    } else if (error == UC_ERR_OK) {
        raise_exception(t, STATUS_PRIVILEGED_INSTRUCTION, NULL, 0); /* it halts */
    } else if (error == UC_ERR_INSN_INVALID) {
        raise_exception(t, STATUS_ILLEGAL_INSTRUCTION, NULL, 0);
    } else {
        raise_exception(t, STATUS_ACCESS_VIOLATION, (uint64_t[2]){0, UINT64_MAX}, 2);
    }
}

/* Runs the thread whose turn it is until the turn is over or it makes a call. */
static void run_current(void) {
    thread *t = current;
    in = t->of;
    if (!goes_on) {
        show_time();
    }
    put_registers(t);
    stopped_at = 0;
    interrupt = fault_kind = -1;
    uc_err error = uc_emu_start(in->engine, t->now.whole[RIP], SYSTEM_CALL + PAGE - 1, 0, 0); /* the end is never reached */
    move_whole(t, uc_reg_read_batch);
    goes_on = interrupt < 0 && error == UC_ERR_OK && stopped_at != 0 && !is_call(stopped_at) && left > 0;
    if (interrupt >= 0) {
        raise_interrupt(t);
    } else if (error != UC_ERR_OK || stopped_at == 0) {
        raise_fault(t, error);
    } else {
        t->now.whole[RIP] = stopped_at;
        if (is_call(stopped_at)) {
            serve(stopped_at);
        }
    }
    look_round();
    if (ends_turn) {
        ends_turn = false;
        left = 0;
    }
}

/* Begins the next turn, or has the time go on where no thread can run. Whether a process is left. */
static bool next_turn(void) {
    if (next_moment() <= now()) {
        tell_time();
        look_round();
    }
    if (om_next_process(&om, host.process) == 0) {
        return false;
    }
    if (!choose()) {
        if (next_moment() > LAST_MOMENT) {
            tell_waits();
            stop("no thread can go on");
        }
        idle += next_moment() - now();
    }
    return true;
}

/* Runs all threads until each has ended, or so many instructions have run. Whether all have ended. */
bool run(void) {
    while (instructions < instructions_most) {
        if (left > 0 && can_run(current)) {
            run_current();
        } else if (!next_turn()) {
            return true;
        }
    }
    return false;
}
