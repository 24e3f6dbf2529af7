// What obman.hpp adds to the header: lists of handles, walks, what only looks, names as C++ has them, managers whose numbers come back, and that a
// walk over what ended tells each object once and ends, however many are pinned.
#include <array>
#include <cstdio>
#include <cstdlib>
#include <obman.hpp>
#include <string>
#include <vector>
#if __cplusplus >= 201703L
#include <string_view>
#endif

// Ends the program where a condition doesn't hold, which is told.
#define MUST(...) must(static_cast<bool>(__VA_ARGS__), __LINE__, #__VA_ARGS__)

using numbers = std::vector<std::uint32_t>;

static void must(bool holds, int line, const char *what) {
    if (!holds) {
        std::fprintf(stderr, "test_obman.cc:%d: not so: %s\n", line, what);
        std::exit(1);
    }
}

static om_limits limits_of(std::uint32_t slots) {
    om_limits limits = obman::manager::most_limits;
    limits.slots = slots;
    return limits;
}

// Of so many objects that end each one in so many is pinned.
static void ends(std::uint32_t count, std::uint32_t one_in) {
    obman::manager m(limits_of(count));
    om_member a = m.spawn(1).value();
    std::vector<obman::reader> readers;
    std::vector<om_opening> opened;
    std::size_t pins = 0;
    for (std::uint32_t i = 0; i < count; i++) {
        opened.push_back(m.create_event(a.thread, {}, {}, false, false).value());
        if (i % one_in == 0) {
            if (pins++ % 16 == 0) {
                readers.push_back(m.new_reader());
            }
            readers.back().pin(opened.back().object).value();
        }
    }
    for (const om_opening &o : opened) {
        m.close(a.thread, o.handle).value();
    }
    std::uint32_t next = 0;
    obman::reaped told = m.ended(), all = std::move(told);
    MUST(told.begin() == told.end());
    for (const om_reaping &r : all) {
        MUST(r.object.slot == next && r.object.generation == 1 && r.outcome == (next % one_in == 0 ? OM_HELD : OM_FREED));
        next++;
    }
    MUST(next == count && m.ended().size() == pins);
    readers.clear();
    MUST(m.ended().size() == pins && m.ended().size() == 0);
}

// Lists of handles, each for the second of two events, which is set.
static void waits() {
    obman::manager m;
    std::uint32_t thread = m.spawn(1).value().thread;
    const std::uint32_t a = m.create_event(thread, {}, {}, true, false)->handle, b = m.create_event(thread, {}, "b", true, true)->handle;
    const std::uint32_t list[] = {a, b};
    numbers vector = {a, b};
    std::array<std::uint32_t, 2> array = {{a, b}};
    auto braces = {a, b};
    const obman::result<std::uint32_t> all[] = {
        m.wait(thread, false, 0, {a, b}),       m.wait(thread, false, 0, {{a, b}}), m.wait(thread, false, 0, list),
        m.wait(thread, false, 0, numbers{a, b}), m.wait(thread, false, 0, vector),   m.wait(thread, false, 0, array),
        m.wait(thread, false, 0, {list, 2}),    m.wait(thread, false, 0, braces),   m.wait(thread, false, 0, std::array<std::uint32_t, 2>{{a, b}}),
        m.wait(thread, false, 0, {vector.data(), vector.size()}),
    };
    for (const obman::result<std::uint32_t> &one : all) {
        MUST(one.value() == OM_WAIT_OBJECT_0 + 1);
    }
    MUST(m.wait(thread, b, 0).value() == OM_WAIT_OBJECT_0 && m.wait(thread, false, 0, {b}).value() == OM_WAIT_OBJECT_0);
    MUST(m.wait(thread, false, 0, {0, 4}).status() == OM_ERROR_INVALID_HANDLE);
    MUST(m.wait(thread, false, 0, {}).status() == OM_ERROR_INVALID_PARAMETER);
    MUST(m.wait(thread, false, 0, numbers()).status() == OM_ERROR_INVALID_PARAMETER);
}

// Times and waits as the native calls have them.
static void times() {
    obman::manager m;
    om_member a = m.spawn(1).value();
    const std::uint32_t second = m.thread(a.process).value();
    const std::uint32_t event = m.create_event(a.thread, {}, {}, false, false)->handle, mutex = m.create_mutex(a.thread, {}, {}, true)->handle;
    const std::uint32_t timer = m.create_timer(a.thread, {}, {}, false)->handle, asleep = m.sleep(second, OM_FOREVER).value();
    m.alert(asleep).value();
    MUST(m.wait_result(asleep).value() == OM_WAIT_IO_COMPLETION && m.sleep(second, om_due_in(0)).value() == OM_WAIT_TIMEOUT);
    const std::uint32_t wait = m.wait_until(second, false, 5, numbers{mutex}).value();
    MUST(m.signal_and_wait(a.thread, mutex, event, 0).value() == OM_WAIT_TIMEOUT && m.wait_result(wait).value() == OM_WAIT_OBJECT_0);
    const std::uint32_t met = m.signal_and_wait(second, mutex, event).value();
    m.pulse_event(a.thread, event).value();
    MUST(m.wait_result(met).value() == OM_WAIT_OBJECT_0);
    m.set_periodic_timer(a.thread, timer, -5, 1).value();
    m.tick(25000).value();
    MUST(m.wait(second, timer, 0).value() == OM_WAIT_OBJECT_0 && m.next_due().value() == 30005);
}

// What a child has of its parent's handles where some are listed, and what was before a call.
static void inherits() {
    obman::manager m;
    om_member a = m.spawn(1).value();
    const std::uint32_t one = m.create_event(a.thread, om_inherited(), {}, true, true)->handle, other = m.create_mutex(a.thread, om_inherited(), {}, true)->handle;
    const std::uint32_t own = m.create_semaphore(a.thread, {}, {}, 3, 5)->handle;
    m.set_handle_flags(a.thread, one, OM_HANDLE_FLAG_PROTECT_FROM_CLOSE, OM_HANDLE_FLAG_PROTECT_FROM_CLOSE).value();
    om_member b = m.child_with(a.thread, numbers{other + 1}).value(), c = m.child_with(a.thread, numbers()).value();
    auto inherited = m.handles(b.process), nothing = m.handles(c.process);
    MUST(inherited.begin()->handle == other && ++inherited.begin() == inherited.end() && nothing.begin() == nothing.end());
    MUST(m.child_with(a.thread, numbers{own}).status() == OM_ERROR_INVALID_PARAMETER);
    MUST(m.child_with(a.thread, numbers{other, 400}).status() == OM_ERROR_INVALID_PARAMETER && m.room(0).processes == 61);
    MUST(m.previous(a.process, one) == 1 && m.previous(a.process, other) == 0 && m.previous(a.process, own) == 3 && m.previous(a.process, 400) == 0);
    m.end_thread(b.thread).value();
    MUST(m.next_thread(b.process, 0) == 0 && m.next_thread(a.process, 0) == a.thread);
}

// What a manager that is const says.
static void looks() {
    obman::manager m;
    om_member a = m.spawn(3).value(), b = m.child(a.thread, false).value();
    om_opening event = m.create_event(a.thread, om_both(om_with_access(OM_SYNCHRONIZE), om_inherited()), "one", true, false).value();
    om_opening mutex = m.create_mutex(a.thread, om_with_grant(OM_SYNCHRONIZE), std::string("two"), true).value();
    om_opening none = m.create_timer(a.thread, {}, {}, false).value();
    std::uint32_t second = m.thread(a.process).value(), wait = m.wait(second, event.handle, 5).value();
    obman::reader r = m.new_reader();
    r.pin(mutex.object).value();

    const obman::manager &c = m;
    const obman::reader &pins = r;
    auto processes = c.processes();
    auto threads = c.threads(a.process);
    MUST(numbers(processes.begin(), processes.end()) == numbers{a.process, b.process});
    MUST(numbers(threads.begin(), threads.end()) == numbers{a.thread, second});
    std::string names;
    for (const obman::named &n : c.names()) {
        MUST(n.session == 3 && n.str().size() == n.length);
        names += n.str();
    }
    MUST(names == "onetwo" && c.directory_len() == 2);
    MUST(c.find(3, "one")->access == c.card(c.find(3, "one")->object)->grant && c.find(4, "one").status() == OM_ERROR_FILE_NOT_FOUND);
    MUST(c.name_of(c.find(3, "two")->object)->str() == "two" && c.name_of(om_object{9, 1}).status() == OM_ERROR_INVALID_HANDLE);
    std::uint32_t slots = 0, before = 0;
    for (om_object o : c.objects()) {
        MUST(o.slot == slots++ && c.counts(o)->handles == 1);
    }
    MUST(slots == 3 && c.next_object(3).status() == OM_ERROR_NO_MORE_ITEMS);
    for (const om_entry &e : c.handles(a.process)) {
        MUST(e.handle > before && c.handle(a.process, e.handle)->access == e.access);
        before = e.handle;
    }
    MUST(before == none.handle && c.handles(b.process).begin() == c.handles(b.process).end());
    MUST(c.handle(a.process, event.handle)->access == OM_SYNCHRONIZE && c.handle_flags(a.thread, event.handle).value() == OM_HANDLE_FLAG_INHERIT);
    MUST(c.card(mutex.object)->grant == OM_SYNCHRONIZE && c.inspect(pins, mutex.object)->kind == OM_MUTEX);
    MUST(pins.holds(mutex.object) && pins.describe(mutex.object)->kind == OM_MUTEX && !pins.holds(event.object));
    MUST(c.handle_state(a.process, mutex.handle)->owner == a.thread && c.handle_state(9, mutex.handle).status() == OM_ERROR_INVALID_PARAMETER);
    MUST(c.state(mutex.object)->owner == a.thread && c.resolve(a.process, none.handle)->slot == none.object.slot);
    MUST(c.limits().slots == 64 && c.limits().max_recursion == 2147483647);
    MUST(c.now() == 0 && c.next_due().value() == 50000 && c.is_pending(wait) && c.wait_of(second) == wait);
    MUST(c.objects_waited_for(wait)->size() == 1 && c.process_of(second) == a.process && c.session_of(b.process).value() == 3);
    std::vector<unsigned char> bytes(*c.save(std::vector<unsigned char>()));
    MUST(c.save(bytes).value() == bytes.size());
    const obman::manager again = obman::manager::load(bytes);
    MUST(again.wait_of(second) == wait && again.next_process(a.process) == b.process);

    m.advance(50000).value();
    for (const om_answer &answer : m.answers()) {
        MUST(answer.wait == wait && answer.code == OM_WAIT_TIMEOUT);
        wait = 0;
    }
    MUST(wait == 0 && m.answers().begin() == m.answers().end());
}

// Names: a literal, its first bytes, a string, and what has no bytes. A name alone says that it is one.
static void names() {
    for (std::uint32_t character = 0; character < 0x10000; character++) {
        char bytes[5];
        std::uint16_t again = 0;
        const std::size_t count = om_spell(static_cast<std::uint16_t>(character), bytes);
        MUST((count == 1 || count == 5) && om_spelled(bytes, count, &again) == count && again == character);
        MUST(std::all_of(bytes, bytes + count, [](char it) { return it >= 0x20 && it <= 0x7E; }));
    }
    obman::manager m;
    std::uint32_t thread = m.spawn(1).value().thread;
    m.create_event(thread, {}, "ready", false, false).value();
    MUST(m.open_event(thread, OM_SYNCHRONIZE, false, {"ready or not", 5}).has_value());
    MUST(m.open_event(thread, OM_SYNCHRONIZE, false, std::string("ready")).has_value());
#if __cplusplus >= 201703L
    MUST(m.open_event(thread, OM_SYNCHRONIZE, false, std::string_view("ready or not").substr(0, 5)).has_value());
#endif
    MUST(m.create_event(thread, om_named(), "", false, false).status() == OM_ERROR_INVALID_PARAMETER);
    MUST(m.create_event(thread, {}, std::string(), false, false).status() == OM_SUCCESS);
    char answers[16];
    MUST(obman::manager::script(m.default_limits, "spawn 1\n", answers).value() == 6);
}

// A handle that stands twice in a wait for any.
static void handles_repeat() {
    obman::manager m = obman::manager::new_with(false, true);
    std::uint32_t thread = m.spawn(1).value().thread;
    om_opening event = m.create_event(thread, {}, {}, false, true).value();
    MUST(m.wait(thread, false, 0, {event.handle, event.handle}).value() == OM_WAIT_OBJECT_0);
    MUST(m.wait(thread, true, 0, {event.handle, event.handle}).status() == OM_ERROR_INVALID_PARAMETER);
}

// Numbers that come back, also behind a load: those of threads that are gone, and that of a thread for each of its waits.
static void numbers_come_back() {
    om_limits limits = obman::manager::default_limits;
    limits.threads = 2;
    limits.waits = 1;
    obman::manager m = obman::manager::reusing(limits);
    om_member a = m.spawn(1).value();
    om_opening event = m.create_event(a.thread, {}, {}, false, false).value();
    for (int round = 0; round < 1000; round++) {
        std::uint32_t second = m.thread(a.process).value();
        MUST(second == 2 && m.thread(a.process).status() == OM_ERROR_NO_SYSTEM_RESOURCES);
        MUST(m.wait(second, event.handle).value() == second && m.is_pending(second) && m.wait_of(second) == second);
        m.set_event(a.thread, event.handle).value();
        std::size_t told = 0;
        for (const om_answer &answer : m.answers()) {
            MUST(answer.wait == second && answer.thread == second && answer.code == OM_WAIT_OBJECT_0);
            told++;
        }
        MUST(told == 1);
        m.end_thread(second).value();
        if (round == 500) {
            std::vector<unsigned char> bytes(*m.save(std::vector<unsigned char>()));
            m.save(bytes).value();
            m = obman::manager::load(bytes);
        }
    }
    MUST(m.limits().threads == 2 && m.limits().waits == 1 && m.limits().max_recursion == limits.max_recursion);
    const om_room room = m.room(a.process);
    MUST(room.slots == 63 && room.processes == 63 && room.threads == 1 && room.handles == 1023 && m.room().handles == 0);
}

#ifdef __cpp_exceptions
// The status of what a call throws, or 0.
template <class Call> static std::uint32_t thrown(Call call) {
    try {
        call();
    } catch (const obman::error &e) {
        return e.status();
    }
    return OM_SUCCESS;
}

static void refusals() {
    MUST(thrown([] { obman::manager().thread(1).value(); }) == OM_ERROR_INVALID_PARAMETER);
    MUST(thrown([] { obman::manager::load(std::vector<unsigned char>()); }) == OM_ERROR_INVALID_DATA);
}
#else
static void refusals() {}
#endif

int main() {
    om_manager raw;
    const om_limits limits = limits_of(1);
    MUST(om_new(&limits, &raw) == OM_SUCCESS && obman::manager(raw).spawn(1)->process == 1);
    for (std::uint32_t count : {1u, 31u, 32u, 33u, 64u, 95u, 96u, 97u, 1000u, 5000u}) {
        ends(count, 1);
        ends(count, 2);
        ends(count, count);
    }
    waits();
    times();
    inherits();
    looks();
    names();
    handles_repeat();
    numbers_come_back();
    refusals();
    std::puts("all held");
    return 0;
}
