//! The functions and types of `obman.h` as they are.

#![allow(missing_docs)]

use std::ffi::c_void;

macro_rules! structs {
    ($($(#[$doc:meta])* $name:ident { $($(#[$of:meta])* $field:ident: $type:ty,)* })*) => {$(
        $(#[$doc])*
        #[repr(C)]
        #[derive(Clone, Copy, Debug, Default, PartialEq, Eq, Hash)]
        pub struct $name {
            $($(#[$of])* pub $field: $type,)*
        }
    )*};
}

#[repr(C)]
#[derive(Clone, Copy)]
pub struct om_manager {
    pub at: *mut c_void,
}

#[repr(C)]
#[derive(Clone, Copy)]
pub struct om_reader {
    pub at: *mut c_void,
}

structs! {
    om_limits {
        slots: u32, processes: u32, threads: u32, handles: u32, waits: u32, max_pins: u32, max_gen: u32, max_recursion: u32,
    }
    om_room { slots: u32, processes: u32, threads: u32, handles: u32, waits: u32, }
    om_member { process: u32, thread: u32, }
    om_object { slot: u32, generation: u32, }
    om_opening { handle: u32, object: om_object, }
    om_making { access: u32, grant: u32, named: bool, inherit: bool, has_access: bool, has_grant: bool, }
    om_description { kind: u32, max: u32, grant: u32, manual: bool, }
    om_descriptor { kind: u32, max: u32, manual: bool, }
    om_object_state {
        due: u64, kind: u32, count: u32, max: u32, owner: u32, signaled: bool, abandoned: bool, has_due: bool,
    }
    om_entry { object: om_object, handle: u32, access: u32, flags: u32, }
    om_handle_info { data: u64, object: om_object, kind: u32, access: u32, flags: u32, reserved: u32, }
    om_reaping { object: om_object, outcome: u32, pins: u32, }
    om_references { waits: u64, handles: u32, hold: u32, }
    om_answer { wait: u32, thread: u32, code: u32, }
    om_pending { deadline: u64, thread: u32, all: bool, has_deadline: bool, }
    om_row { object: om_object, session: u32, length: u32, }
}

extern "C" {
    pub fn om_new(limits: *const om_limits, m: *mut om_manager) -> u32;
    pub fn om_new_reusing(limits: *const om_limits, m: *mut om_manager) -> u32;
    pub fn om_new_with(limits: *const om_limits, reuse: bool, repeats: bool, m: *mut om_manager) -> u32;
    pub fn om_free(m: om_manager);
    pub fn om_limits_of(m: *mut om_manager, limits: *mut om_limits) -> u32;
    pub fn om_room_of(m: *mut om_manager, process: u32, room: *mut om_room) -> u32;
    pub fn om_spawn(m: *mut om_manager, session: u32, member: *mut om_member) -> u32;
    pub fn om_child(m: *mut om_manager, thread: u32, inherit: bool, member: *mut om_member) -> u32;
    pub fn om_thread(m: *mut om_manager, process: u32, thread: *mut u32) -> u32;
    pub fn om_end_thread(m: *mut om_manager, thread: u32) -> u32;
    pub fn om_exit(m: *mut om_manager, process: u32) -> u32;
    pub fn om_create_event(
        m: *mut om_manager,
        thread: u32,
        making: *const om_making,
        name: *const u8,
        length: usize,
        manual: bool,
        set: bool,
        opening: *mut om_opening,
    ) -> u32;
    pub fn om_create_mutex(
        m: *mut om_manager,
        thread: u32,
        making: *const om_making,
        name: *const u8,
        length: usize,
        owned: bool,
        opening: *mut om_opening,
    ) -> u32;
    pub fn om_create_semaphore(
        m: *mut om_manager,
        thread: u32,
        making: *const om_making,
        name: *const u8,
        length: usize,
        initial: i32,
        max: i32,
        opening: *mut om_opening,
    ) -> u32;
    pub fn om_create_timer(
        m: *mut om_manager,
        thread: u32,
        making: *const om_making,
        name: *const u8,
        length: usize,
        manual: bool,
        opening: *mut om_opening,
    ) -> u32;
    pub fn om_create_host(
        m: *mut om_manager,
        thread: u32,
        making: *const om_making,
        name: *const u8,
        length: usize,
        object_type: u8,
        manual: bool,
        signaled: bool,
        opening: *mut om_opening,
    ) -> u32;
    pub fn om_open_event(
        m: *mut om_manager,
        thread: u32,
        access: u32,
        inherit: bool,
        name: *const u8,
        length: usize,
        opening: *mut om_opening,
    ) -> u32;
    pub fn om_open_mutex(
        m: *mut om_manager,
        thread: u32,
        access: u32,
        inherit: bool,
        name: *const u8,
        length: usize,
        opening: *mut om_opening,
    ) -> u32;
    pub fn om_open_semaphore(
        m: *mut om_manager,
        thread: u32,
        access: u32,
        inherit: bool,
        name: *const u8,
        length: usize,
        opening: *mut om_opening,
    ) -> u32;
    pub fn om_open_timer(
        m: *mut om_manager,
        thread: u32,
        access: u32,
        inherit: bool,
        name: *const u8,
        length: usize,
        opening: *mut om_opening,
    ) -> u32;
    pub fn om_open_host(
        m: *mut om_manager,
        thread: u32,
        object_type: u8,
        access: u32,
        inherit: bool,
        name: *const u8,
        length: usize,
        opening: *mut om_opening,
    ) -> u32;
    pub fn om_duplicate(
        m: *mut om_manager,
        thread: u32,
        source: u32,
        handle: u32,
        target: u32,
        access: u32,
        inherit: bool,
        options: u32,
        opening: *mut om_opening,
    ) -> u32;
    pub fn om_close(m: *mut om_manager, thread: u32, handle: u32) -> u32;
    pub fn om_handle_flags(m: *mut om_manager, thread: u32, handle: u32, flags: *mut u32) -> u32;
    pub fn om_set_handle_flags(m: *mut om_manager, thread: u32, handle: u32, mask: u32, flags: u32) -> u32;
    pub fn om_resolve(m: *mut om_manager, process: u32, handle: u32, object: *mut om_object) -> u32;
    pub fn om_set_event(m: *mut om_manager, thread: u32, handle: u32) -> u32;
    pub fn om_reset_event(m: *mut om_manager, thread: u32, handle: u32) -> u32;
    pub fn om_pulse_event(m: *mut om_manager, thread: u32, handle: u32) -> u32;
    pub fn om_release_semaphore(
        m: *mut om_manager,
        thread: u32,
        handle: u32,
        count: i32,
        previous: *mut u32,
    ) -> u32;
    pub fn om_release_mutex(m: *mut om_manager, thread: u32, handle: u32) -> u32;
    pub fn om_signal_host(m: *mut om_manager, slot: u32, generation: u32, signaled: bool) -> u32;
    pub fn om_set_timer(m: *mut om_manager, thread: u32, handle: u32, due: i64) -> u32;
    pub fn om_set_periodic_timer(m: *mut om_manager, thread: u32, handle: u32, due: i64, period: i32) -> u32;
    pub fn om_cancel_timer(m: *mut om_manager, thread: u32, handle: u32) -> u32;
    pub fn om_tick(m: *mut om_manager, now: u64) -> u32;
    pub fn om_advance(m: *mut om_manager, now: u64) -> u32;
    pub fn om_next_due(m: *mut om_manager, moment: *mut u64) -> u32;
    pub fn om_wait(
        m: *mut om_manager,
        thread: u32,
        all: bool,
        milliseconds: u32,
        handles: *const u32,
        count: usize,
        answer: *mut u32,
    ) -> u32;
    pub fn om_wait_until(
        m: *mut om_manager,
        thread: u32,
        all: bool,
        due: i64,
        handles: *const u32,
        count: usize,
        answer: *mut u32,
    ) -> u32;
    pub fn om_signal_and_wait(
        m: *mut om_manager,
        thread: u32,
        signal: u32,
        handle: u32,
        due: i64,
        answer: *mut u32,
    ) -> u32;
    pub fn om_sleep(m: *mut om_manager, thread: u32, due: i64, answer: *mut u32) -> u32;
    pub fn om_wait_result(m: *mut om_manager, wait: u32, answer: *mut u32) -> u32;
    pub fn om_take_answered(
        m: *mut om_manager,
        answers: *mut om_answer,
        capacity: usize,
        count: *mut usize,
    ) -> u32;
    pub fn om_expire(m: *mut om_manager, wait: u32) -> u32;
    pub fn om_alert(m: *mut om_manager, wait: u32) -> u32;
    pub fn om_card(m: *mut om_manager, slot: u32, generation: u32, description: *mut om_description) -> u32;
    pub fn om_state(m: *mut om_manager, slot: u32, generation: u32, state: *mut om_object_state) -> u32;
    pub fn om_handle_state(m: *mut om_manager, process: u32, handle: u32, state: *mut om_object_state) -> u32;
    pub fn om_handle(m: *mut om_manager, process: u32, handle: u32, entry: *mut om_entry) -> u32;
    pub fn om_query_handle(m: *mut om_manager, process: u32, handle: u32, info: *mut om_handle_info) -> u32;
    pub fn om_set_object_data(m: *mut om_manager, slot: u32, generation: u32, data: u64) -> u32;
    pub fn om_set_thread_data(m: *mut om_manager, thread: u32, data: u64) -> u32;
    pub fn om_set_process_data(m: *mut om_manager, process: u32, data: u64) -> u32;
    pub fn om_object_data(m: *mut om_manager, slot: u32, generation: u32) -> u64;
    pub fn om_thread_data(m: *mut om_manager, thread: u32) -> u64;
    pub fn om_process_data(m: *mut om_manager, process: u32) -> u64;
    pub fn om_next_object(m: *mut om_manager, from: u32, object: *mut om_object) -> u32;
    pub fn om_next_handle(m: *mut om_manager, process: u32, after: u32, entry: *mut om_entry) -> u32;
    pub fn om_session_of(m: *mut om_manager, process: u32, session: *mut u32) -> u32;
    pub fn om_objects_waited_for(
        m: *mut om_manager,
        wait: u32,
        pending: *mut om_pending,
        objects: *mut om_object,
        capacity: usize,
        count: *mut usize,
    ) -> u32;
    pub fn om_counts(m: *mut om_manager, slot: u32, generation: u32, references: *mut om_references) -> u32;
    pub fn om_reap(m: *mut om_manager, slot: u32, reaping: *mut om_reaping) -> u32;
    pub fn om_take_ended(
        m: *mut om_manager,
        reapings: *mut om_reaping,
        capacity: usize,
        count: *mut usize,
    ) -> u32;
    pub fn om_directory_at(
        m: *mut om_manager,
        at: usize,
        name: *mut u8,
        capacity: usize,
        row: *mut om_row,
    ) -> u32;
    pub fn om_find(m: *mut om_manager, session: u32, name: *const u8, length: usize, info: *mut om_handle_info) -> u32;
    pub fn om_name_of(
        m: *mut om_manager,
        slot: u32,
        generation: u32,
        name: *mut u8,
        capacity: usize,
        row: *mut om_row,
    ) -> u32;
    pub fn om_record(m: *mut om_manager, on: bool) -> u32;
    pub fn om_take_record(
        m: *mut om_manager,
        lines: *mut u8,
        capacity: usize,
        written: *mut usize,
    ) -> u32;
    pub fn om_script(
        limits: *const om_limits,
        script: *const u8,
        length: usize,
        answers: *mut u8,
        capacity: usize,
        written: *mut usize,
    ) -> u32;
    pub fn om_dump(m: *mut om_manager, text: *mut u8, capacity: usize, written: *mut usize) -> u32;
    pub fn om_save(m: *mut om_manager, bytes: *mut c_void, capacity: usize, written: *mut usize) -> u32;
    pub fn om_load(bytes: *const c_void, length: usize, m: *mut om_manager) -> u32;
    pub fn om_reader_new(m: *mut om_manager, r: *mut om_reader) -> u32;
    pub fn om_reader_free(r: om_reader);
    pub fn om_reader_pin(r: *mut om_reader, slot: u32, generation: u32) -> u32;
    pub fn om_reader_unpin(r: *mut om_reader, slot: u32, generation: u32) -> u32;
    pub fn om_reader_describe(
        r: *mut om_reader,
        slot: u32,
        generation: u32,
        descriptor: *mut om_descriptor,
    ) -> u32;
    pub fn om_inspect(
        m: *mut om_manager,
        r: *mut om_reader,
        slot: u32,
        generation: u32,
        description: *mut om_description,
    ) -> u32;
    pub fn om_reader_holds(r: *mut om_reader, slot: u32, generation: u32) -> bool;
    pub fn om_is_pending(m: *mut om_manager, wait: u32) -> bool;
    pub fn om_now(m: *mut om_manager) -> u64;
    pub fn om_next_process(m: *mut om_manager, after: u32) -> u32;
    pub fn om_next_thread(m: *mut om_manager, process: u32, after: u32) -> u32;
    pub fn om_process_of(m: *mut om_manager, thread: u32) -> u32;
    pub fn om_wait_of(m: *mut om_manager, thread: u32) -> u32;
    pub fn om_directory_len(m: *mut om_manager) -> usize;
    pub fn om_version() -> u32;
}
