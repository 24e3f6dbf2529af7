// The object layer for C++11 and later, over obman.h: what it says of each call holds here too.
//
//     obman::manager m;                                         // or m(limits)
//     auto guest = m.spawn(1).value();                          // a process and its thread
//     auto ready = m.create_event(guest.thread, {}, "Local\\ready", false, false);
//     if (!ready) return ready.status();                        // a Win32 error number for the guest
//     auto wait = m.wait(guest.thread, false, 10, {ready->handle, other});
//     for (const om_answer &a : m.answers()) wake(a.thread, a.code);
//
// A call gives a `result`: its status, and where that is no error its value. A refusal is no failure of the host but the answer of a
// guest's call, so none is thrown but by the making of a manager or a reader, by a load and by `value()`, where there is no value. In a
// program that is built without exceptions these end it (std::abort); om_new, om_new_reusing, om_new_with, om_load and om_reader_new say the status
// before, and what they made a `manager` or a `reader` takes over.
//
// What only looks is const, and is one call at a time as all others are.
#ifndef OBMAN_HPP
#define OBMAN_HPP

#include "obman.h"

#include <algorithm>
#include <cstddef>
#include <cstdint>
#include <cstdlib>
#include <cstring>
#include <initializer_list>
#include <iterator>
#include <memory>
#include <new>
#include <stdexcept>
#include <string>
#include <type_traits>
#include <utility>

#if __cplusplus >= 201703L
#define OBMAN_NODISCARD [[nodiscard]]
#else
#define OBMAN_NODISCARD
#endif

namespace obman {

// Which release the library is of, as OM_VERSION says it of the header.
inline std::uint32_t version() noexcept { return om_version(); }

// The Win32 name of a status or of a wait's code WAIT_TIMEOUT, for logs; "unknown" for another number.
inline const char *error_name(std::uint32_t status) noexcept { return om_error_name(status); }
inline std::uint32_t nt_status(std::uint32_t status) noexcept { return om_nt_status(status); }
inline std::uint32_t map_access(std::uint32_t kind, std::uint32_t mask) noexcept { return om_map_access(kind, mask); }

// Thrown where there is no manager, no reader, or no value, with the Win32 error number.
class error : public std::runtime_error {
public:
    explicit error(std::uint32_t status)
        : std::runtime_error(std::string("obman: ") + error_name(status) + " (" + std::to_string(status) + ")"), status_(status) {}
    std::uint32_t status() const noexcept { return status_; }

private:
    std::uint32_t status_;
};

[[noreturn]] inline void fail(std::uint32_t status) {
#ifdef __cpp_exceptions
    throw error(status);
#else
    static_cast<void>(status);
    std::abort();
#endif
}

// What a call without a value answers.
class OBMAN_NODISCARD status_only {
public:
    constexpr explicit status_only(std::uint32_t status) noexcept : status_(status) {}
    constexpr explicit operator bool() const noexcept { return status_ == OM_SUCCESS; }
    constexpr std::uint32_t status() const noexcept { return status_; }
    void value() const {
        if (status_ != OM_SUCCESS) {
            fail(status_);
        }
    }

private:
    std::uint32_t status_;
};

// What a call with a value answers. It has one with OM_SUCCESS, OM_ERROR_ALREADY_EXISTS (a create that opened) and
// OM_ERROR_IO_PENDING (a wait's number).
template <class T> class OBMAN_NODISCARD result {
public:
    constexpr result(std::uint32_t status, const T &value) noexcept : status_(status), value_(value) {}
    constexpr bool has_value() const noexcept {
        return status_ == OM_SUCCESS || status_ == OM_ERROR_ALREADY_EXISTS || status_ == OM_ERROR_IO_PENDING;
    }
    constexpr explicit operator bool() const noexcept { return has_value(); }
    constexpr std::uint32_t status() const noexcept { return status_; }
    constexpr bool is_pending() const noexcept { return status_ == OM_ERROR_IO_PENDING; }
    constexpr bool already_exists() const noexcept { return status_ == OM_ERROR_ALREADY_EXISTS; }
    constexpr const T &operator*() const noexcept { return value_; }
    constexpr const T *operator->() const noexcept { return &value_; }
    const T &value() const {
        if (!has_value()) {
            fail(status_);
        }
        return value_;
    }

private:
    std::uint32_t status_;
    T value_;
};

// What a pending wait is for: its thread, mode and deadline, and its objects in the order of its handles, for a range too.
struct waited_for : om_pending {
    std::size_t size() const noexcept { return count; }
    const om_object *begin() const noexcept { return objects; }
    const om_object *end() const noexcept { return objects + count; }
    const om_object &operator[](std::size_t at) const noexcept { return objects[at]; }

    om_object objects[OM_MAXIMUM_WAIT_OBJECTS];
    std::size_t count;
};

// A row of the directory with its name.
struct named : om_row {
    std::string str() const { return std::string(bytes, length); }

    char bytes[OM_NAME_MOST];
};

// So many items at a place, for one call: those of an array, a vector and the like, also of one that ends with the call's line. Where there
// are none it is no null pointer either.
template <class T> class span {
public:
    template <class U, class = typename std::enable_if<std::is_convertible<U *, T *>::value>::type>
    span(U *data, std::size_t size) noexcept : data_(size == 0 ? nothing() : data), size_(size) {}
    template <std::size_t N> span(T (&items)[N]) noexcept : data_(items), size_(N) {}
    template <class C, class = decltype(static_cast<T *>(std::declval<C>().data()))>
    span(C &&items) noexcept : span(items.data(), static_cast<std::size_t>(items.size())) {}
    T *data() const noexcept { return data_; }
    std::size_t size() const noexcept { return size_; }
    T *begin() const noexcept { return data_; }
    T *end() const noexcept { return data_ + size_; }

private:
    static T *nothing() noexcept {
        static typename std::remove_const<T>::type none;
        return &none;
    }

    T *data_;
    std::size_t size_;
};

// A name or a script: of a literal, a string, a string_view and the like.
class text {
public:
    text(const char *chars = "") noexcept : data_(chars), size_(std::strlen(chars)) {}
    text(const char *chars, std::size_t size) noexcept : data_(size == 0 ? "" : chars), size_(size) {}
    template <class C, class = decltype(static_cast<const char *>(std::declval<const C &>().data()))>
    text(const C &chars) noexcept : text(chars.data(), static_cast<std::size_t>(chars.size())) {}
    const char *data() const noexcept { return data_; }
    std::size_t size() const noexcept { return size_; }

private:
    const char *data_;
    std::size_t size_;
};

// A walk over a manager, a range for `for`. `Next` finds the next one behind so many, and behind the last that was found.
template <class T, bool (*Next)(om_manager &, std::uint32_t, std::size_t, T &)> class walk {
public:
    class iterator {
    public:
        using iterator_category = std::input_iterator_tag;
        using value_type = T;
        using difference_type = std::ptrdiff_t;
        using pointer = const T *;
        using reference = const T &;
        iterator() noexcept : m_{nullptr}, of_(0), found_(0), at_() {}
        iterator(om_manager m, std::uint32_t of) noexcept : m_(m), of_(of), found_(0), at_() { ++*this; }
        reference operator*() const noexcept { return at_; }
        pointer operator->() const noexcept { return &at_; }
        iterator &operator++() noexcept {
            if (!Next(m_, of_, found_++, at_)) {
                m_.at = nullptr;
            }
            return *this;
        }
        iterator operator++(int) noexcept {
            iterator before = *this;
            ++*this;
            return before;
        }
        friend bool operator==(const iterator &a, const iterator &b) noexcept { return a.m_.at == b.m_.at; }
        friend bool operator!=(const iterator &a, const iterator &b) noexcept { return !(a == b); }

    private:
        om_manager m_; // null behind the last
        std::uint32_t of_;
        std::size_t found_;
        T at_;
    };
    explicit walk(om_manager m, std::uint32_t of = 0) noexcept : m_(m), of_(of) {}
    iterator begin() const noexcept { return iterator(m_, of_); }
    iterator end() const noexcept { return iterator(); }

private:
    om_manager m_;
    std::uint32_t of_;
};

struct steps {
    static bool answer(om_manager &m, std::uint32_t, std::size_t, om_answer &at) noexcept {
        std::size_t count = 0;
        om_take_answered(&m, &at, 1, &count);
        return count > 0;
    }
    static bool process(om_manager &m, std::uint32_t, std::size_t, std::uint32_t &at) noexcept {
        return (at = om_next_process(&m, at)) != 0;
    }
    static bool thread(om_manager &m, std::uint32_t of, std::size_t, std::uint32_t &at) noexcept {
        return (at = om_next_thread(&m, of, at)) != 0;
    }
    static bool handle(om_manager &m, std::uint32_t of, std::size_t, om_entry &at) noexcept {
        return om_next_handle(&m, of, at.handle, &at) == OM_SUCCESS;
    }
    static bool object(om_manager &m, std::uint32_t, std::size_t found, om_object &at) noexcept {
        return om_next_object(&m, found == 0 ? 0 : at.slot + 1, &at) == OM_SUCCESS;
    }
    static bool name(om_manager &m, std::uint32_t, std::size_t found, named &at) noexcept {
        return om_directory_at(&m, found, at.bytes, OM_NAME_MOST, &at) == OM_SUCCESS;
    }
};

// What ended, by rising slot, each object once, however many are pinned: a list of its own.
class reaped {
public:
    explicit reaped(om_manager m) noexcept {
        std::size_t room = sizeof few_ / sizeof *few_, told;
        om_take_ended(&m, few_, room, &count_);
        // (what is pinned is told by each call: one with more room than that comes to what is behind a full list)
        for (told = count_; told == room;) {
            om_reaping *all = data();
            const std::size_t kept = static_cast<std::size_t>(std::partition(all, all + count_, is_over) - all);
            room = 2 * count_;
            std::unique_ptr<om_reaping[]> more(new (std::nothrow) om_reaping[kept + room]);
            if (!more) {
                break; // the rest is for the next time
            }
            std::copy(all, all + kept, more.get());
            om_take_ended(&m, more.get() + kept, room, &told);
            many_ = std::move(more);
            count_ = kept + told;
        }
        std::sort(data(), data() + count_, [](const om_reaping &a, const om_reaping &b) { return a.object.slot < b.object.slot; });
    }
    reaped(reaped &&other) noexcept : many_(std::move(other.many_)), count_(other.count_) {
        std::copy(other.few_, other.few_ + (many_ ? 0 : count_), few_);
        other.count_ = 0;
    }
    const om_reaping *begin() const noexcept { return many_ ? many_.get() : few_; }
    const om_reaping *end() const noexcept { return begin() + count_; }
    std::size_t size() const noexcept { return count_; }

private:
    static bool is_over(const om_reaping &r) noexcept { return r.outcome != OM_HELD; }
    om_reaping *data() noexcept { return many_ ? many_.get() : few_; }

    om_reaping few_[32];
    std::unique_ptr<om_reaping[]> many_; // in place of the few
    std::size_t count_;
};

// A reader pins objects on any thread without the manager's lock. It lets all go at its end.
class reader {
public:
    explicit reader(om_reader r) noexcept : r_(r) {}
    reader(reader &&other) noexcept : r_(other.r_) { other.r_.at = nullptr; }
    reader &operator=(reader &&other) noexcept {
        std::swap(r_, other.r_);
        return *this;
    }
    ~reader() { om_reader_free(r_); }
    status_only pin(om_object o) noexcept { return status_only(om_reader_pin(&r_, o.slot, o.generation)); }
    status_only unpin(om_object o) noexcept { return status_only(om_reader_unpin(&r_, o.slot, o.generation)); }
    bool holds(om_object o) const noexcept { return om_reader_holds(&r_, o.slot, o.generation); }
    result<om_descriptor> describe(om_object o) const noexcept {
        om_descriptor d{};
        std::uint32_t status = om_reader_describe(&r_, o.slot, o.generation, &d);
        return {status, d};
    }
    om_reader *get() const noexcept { return &r_; }

private:
    mutable om_reader r_;
};

// The limits of OM_LIMITS_DEFAULT and OM_LIMITS_MOST.
template <class> struct known_limits {
    static constexpr om_limits default_limits = OM_LIMITS_DEFAULT;
    // The greatest, for a host that runs for long where numbers are given once: 14 MiB are reserved.
    static constexpr om_limits most_limits = OM_LIMITS_MOST;
};
#if __cplusplus < 201703L
template <class T> constexpr om_limits known_limits<T>::default_limits;
template <class T> constexpr om_limits known_limits<T>::most_limits;
#endif

// A manager, which ends with its owner. One call at a time: several threads keep a lock of their own round it.
class manager : public known_limits<void> {
public:
    explicit manager(const om_limits &limits = default_limits) : m_{nullptr} {
        std::uint32_t status = om_new(&limits, &m_);
        if (status != OM_SUCCESS) {
            fail(status);
        }
    }
    // One that om_new, om_new_reusing, om_new_with or om_load made.
    explicit manager(om_manager m) noexcept : m_(m) {}
    manager(manager &&other) noexcept : m_(other.m_) { other.m_.at = nullptr; }
    manager &operator=(manager &&other) noexcept {
        std::swap(m_, other.m_);
        return *this;
    }
    ~manager() { om_free(m_); }
    // One whose numbers come back: a new process or thread has the least number that no live one has, and a wait is called by its thread.
    static manager reusing(const om_limits &limits = default_limits) {
        om_manager m{nullptr};
        return made(om_new_reusing(&limits, &m), m);
    }
    // One whose numbers come back or not, and which takes a handle twice in a wait for any or not.
    static manager new_with(bool reuse, bool repeats, const om_limits &limits = default_limits) {
        om_manager m{nullptr};
        return made(om_new_with(&limits, reuse, repeats, &m), m);
    }
    // The manager of a savestate. Bytes that are none give the error OM_ERROR_INVALID_DATA.
    static manager load(span<const unsigned char> bytes) {
        om_manager m{nullptr};
        return made(om_load(bytes.data(), bytes.size(), &m), m);
    }
    om_manager *get() const noexcept { return &m_; }

    // Processes and threads.
    result<om_member> spawn(std::uint32_t session) noexcept { return with<om_member>(om_spawn, session); }
    result<om_member> child(std::uint32_t thread, bool inherit) noexcept { return with<om_member>(om_child, thread, inherit); }
    result<om_member> child_with(std::uint32_t thread, span<const std::uint32_t> handles) noexcept {
        return with<om_member>(om_child_with, thread, handles.data(), handles.size());
    }
    result<std::uint32_t> thread(std::uint32_t process) noexcept { return with<std::uint32_t>(om_thread, process); }
    status_only end_thread(std::uint32_t thread) noexcept { return status_only(om_end_thread(&m_, thread)); }
    status_only exit(std::uint32_t process) noexcept { return status_only(om_exit(&m_, process)); }

    // Objects. A name that isn't empty makes a named object; om_named() says it for the empty name too.
    result<om_opening> create_event(std::uint32_t thread, om_making making, text name, bool manual, bool set) noexcept {
        return create(om_create_event, thread, making, name, manual, set);
    }
    result<om_opening> create_mutex(std::uint32_t thread, om_making making, text name, bool owned) noexcept {
        return create(om_create_mutex, thread, making, name, owned);
    }
    result<om_opening> create_semaphore(std::uint32_t thread, om_making making, text name, std::int32_t initial,
                                        std::int32_t max) noexcept {
        return create(om_create_semaphore, thread, making, name, initial, max);
    }
    result<om_opening> create_timer(std::uint32_t thread, om_making making, text name, bool manual) noexcept {
        return create(om_create_timer, thread, making, name, manual);
    }
    result<om_opening> create_host(std::uint32_t thread, om_making making, text name, std::uint8_t object_type, bool manual,
                                   bool signaled) noexcept {
        return create(om_create_host, thread, making, name, object_type, manual, signaled);
    }
    result<om_opening> open_event(std::uint32_t thread, std::uint32_t access, bool inherit, text name) noexcept {
        return with<om_opening>(om_open_event, thread, access, inherit, name.data(), name.size());
    }
    result<om_opening> open_mutex(std::uint32_t thread, std::uint32_t access, bool inherit, text name) noexcept {
        return with<om_opening>(om_open_mutex, thread, access, inherit, name.data(), name.size());
    }
    result<om_opening> open_semaphore(std::uint32_t thread, std::uint32_t access, bool inherit, text name) noexcept {
        return with<om_opening>(om_open_semaphore, thread, access, inherit, name.data(), name.size());
    }
    result<om_opening> open_timer(std::uint32_t thread, std::uint32_t access, bool inherit, text name) noexcept {
        return with<om_opening>(om_open_timer, thread, access, inherit, name.data(), name.size());
    }
    result<om_opening> open_host(std::uint32_t thread, std::uint8_t object_type, std::uint32_t access, bool inherit, text name) noexcept {
        return with<om_opening>(om_open_host, thread, object_type, access, inherit, name.data(), name.size());
    }

    // Handles.
    result<om_opening> duplicate(std::uint32_t thread, std::uint32_t source, std::uint32_t handle, std::uint32_t target,
                                 std::uint32_t access, bool inherit, std::uint32_t options) noexcept {
        return with<om_opening>(om_duplicate, thread, source, handle, target, access, inherit, options);
    }
    status_only close(std::uint32_t thread, std::uint32_t handle) noexcept { return status_only(om_close(&m_, thread, handle)); }
    result<std::uint32_t> handle_flags(std::uint32_t thread, std::uint32_t handle) const noexcept {
        return with<std::uint32_t>(om_handle_flags, thread, handle);
    }
    status_only set_handle_flags(std::uint32_t thread, std::uint32_t handle, std::uint32_t mask, std::uint32_t flags) noexcept {
        return status_only(om_set_handle_flags(&m_, thread, handle, mask, flags));
    }
    result<om_object> resolve(std::uint32_t process, std::uint32_t handle) const noexcept { return with<om_object>(om_resolve, process, handle); }

    // Events, semaphores, mutexes, timers and objects of the host's own, and the time.
    status_only set_event(std::uint32_t thread, std::uint32_t handle) noexcept { return status_only(om_set_event(&m_, thread, handle)); }
    status_only reset_event(std::uint32_t thread, std::uint32_t handle) noexcept { return status_only(om_reset_event(&m_, thread, handle)); }
    status_only pulse_event(std::uint32_t thread, std::uint32_t handle) noexcept { return status_only(om_pulse_event(&m_, thread, handle)); }
    result<std::uint32_t> release_semaphore(std::uint32_t thread, std::uint32_t handle, std::int32_t count) noexcept {
        return with<std::uint32_t>(om_release_semaphore, thread, handle, count);
    }
    status_only release_mutex(std::uint32_t thread, std::uint32_t handle) noexcept {
        return status_only(om_release_mutex(&m_, thread, handle));
    }
    status_only signal_host(om_object object, bool signaled) noexcept {
        return status_only(om_signal_host(&m_, object.slot, object.generation, signaled));
    }
    status_only set_timer(std::uint32_t thread, std::uint32_t handle, std::int64_t due) noexcept {
        return status_only(om_set_timer(&m_, thread, handle, due));
    }
    status_only set_periodic_timer(std::uint32_t thread, std::uint32_t handle, std::int64_t due, std::int32_t period) noexcept {
        return status_only(om_set_periodic_timer(&m_, thread, handle, due, period));
    }
    status_only cancel_timer(std::uint32_t thread, std::uint32_t handle) noexcept { return status_only(om_cancel_timer(&m_, thread, handle)); }
    status_only tick(std::uint64_t now) noexcept { return status_only(om_tick(&m_, now)); }
    status_only advance(std::uint64_t now) noexcept { return status_only(om_advance(&m_, now)); }

    // Waits. A wait that is pending gives its number (that of its thread, where numbers come back), one that is satisfied its code.
    result<std::uint32_t> wait(std::uint32_t thread, bool all, std::uint32_t milliseconds, span<const std::uint32_t> handles) noexcept {
        return with<std::uint32_t>(om_wait, thread, all, milliseconds, handles.data(), handles.size());
    }
    result<std::uint32_t> wait(std::uint32_t thread, bool all, std::uint32_t milliseconds,
                               std::initializer_list<std::uint32_t> handles) noexcept {
        return wait(thread, all, milliseconds, span<const std::uint32_t>(handles.begin(), handles.size()));
    }
    result<std::uint32_t> wait(std::uint32_t thread, std::uint32_t handle, std::uint32_t milliseconds = OM_INFINITE) noexcept {
        return with<std::uint32_t>(om_wait, thread, false, milliseconds, &handle, std::size_t{1});
    }
    result<std::uint32_t> wait_until(std::uint32_t thread, bool all, std::int64_t due, span<const std::uint32_t> handles) noexcept {
        return with<std::uint32_t>(om_wait_until, thread, all, due, handles.data(), handles.size());
    }
    result<std::uint32_t> signal_and_wait(std::uint32_t thread, std::uint32_t signal, std::uint32_t handle, std::int64_t due = OM_FOREVER) noexcept {
        return with<std::uint32_t>(om_signal_and_wait, thread, signal, handle, due);
    }
    result<std::uint32_t> sleep(std::uint32_t thread, std::int64_t due) noexcept { return with<std::uint32_t>(om_sleep, thread, due); }
    result<std::uint32_t> wait_result(std::uint32_t wait) noexcept { return with<std::uint32_t>(om_wait_result, wait); }
    status_only expire(std::uint32_t wait) noexcept { return status_only(om_expire(&m_, wait)); }
    status_only alert(std::uint32_t wait) noexcept { return status_only(om_alert(&m_, wait)); }
    bool is_pending(std::uint32_t wait) const noexcept { return om_is_pending(&m_, wait); }

    // What a host is told: who was answered, each taken as the walk comes to it, what ended, and when something is due next.
    walk<om_answer, steps::answer> answers() noexcept { return walk<om_answer, steps::answer>(m_); }
    reaped ended() noexcept { return reaped(m_); }
    result<std::uint64_t> next_due() const noexcept { return with<std::uint64_t>(om_next_due); }
    std::uint64_t now() const noexcept { return om_now(&m_); }
    om_limits limits() const noexcept { return *with<om_limits>(om_limits_of); }
    // What can still come; handles only of a process that is named.
    om_room room(std::uint32_t process = 0) const noexcept { return *with<om_room>(om_room_of, process); }

    // What the host keeps at objects, threads and processes.
    status_only set_data(om_object o, std::uint64_t data) noexcept { return status_only(om_set_object_data(&m_, o.slot, o.generation, data)); }
    status_only set_thread_data(std::uint32_t thread, std::uint64_t data) noexcept { return status_only(om_set_thread_data(&m_, thread, data)); }
    status_only set_process_data(std::uint32_t process, std::uint64_t data) noexcept {
        return status_only(om_set_process_data(&m_, process, data));
    }
    std::uint64_t data(om_object o) const noexcept { return om_object_data(&m_, o.slot, o.generation); }
    std::uint64_t thread_data(std::uint32_t thread) const noexcept { return om_thread_data(&m_, thread); }
    std::uint64_t process_data(std::uint32_t process) const noexcept { return om_process_data(&m_, process); }

    // What there is, for debuggers and monitors. The walks go by rising number, handle or slot, and names in the order of the directory.
    walk<std::uint32_t, steps::process> processes() const noexcept { return walk<std::uint32_t, steps::process>(m_); }
    walk<std::uint32_t, steps::thread> threads(std::uint32_t process) const noexcept { return walk<std::uint32_t, steps::thread>(m_, process); }
    walk<om_entry, steps::handle> handles(std::uint32_t process) const noexcept { return walk<om_entry, steps::handle>(m_, process); }
    walk<om_object, steps::object> objects() const noexcept { return walk<om_object, steps::object>(m_); }
    walk<named, steps::name> names() const noexcept { return walk<named, steps::name>(m_); }
    result<om_object_state> state(om_object o) const noexcept { return with<om_object_state>(om_state, o.slot, o.generation); }
    result<om_object_state> handle_state(std::uint32_t process, std::uint32_t handle) const noexcept {
        return with<om_object_state>(om_handle_state, process, handle);
    }
    std::int32_t previous(std::uint32_t process, std::uint32_t handle) const noexcept { return om_previous(&m_, process, handle); }
    result<om_entry> handle(std::uint32_t process, std::uint32_t handle) const noexcept { return with<om_entry>(om_handle, process, handle); }
    result<om_handle_info> query_handle(std::uint32_t process, std::uint32_t handle) const noexcept {
        return with<om_handle_info>(om_query_handle, process, handle);
    }
    result<om_object> next_object(std::uint32_t from) const noexcept { return with<om_object>(om_next_object, from); }
    result<om_entry> next_handle(std::uint32_t process, std::uint32_t after) const noexcept {
        return with<om_entry>(om_next_handle, process, after);
    }
    std::uint32_t next_process(std::uint32_t after) const noexcept { return om_next_process(&m_, after); }
    std::uint32_t next_thread(std::uint32_t process, std::uint32_t after) const noexcept { return om_next_thread(&m_, process, after); }
    std::uint32_t process_of(std::uint32_t thread) const noexcept { return om_process_of(&m_, thread); }
    std::uint32_t wait_of(std::uint32_t thread) const noexcept { return om_wait_of(&m_, thread); }
    result<std::uint32_t> session_of(std::uint32_t process) const noexcept { return with<std::uint32_t>(om_session_of, process); }
    result<waited_for> objects_waited_for(std::uint32_t wait) const noexcept {
        waited_for found{};
        std::uint32_t status = om_objects_waited_for(&m_, wait, &found, found.objects, OM_MAXIMUM_WAIT_OBJECTS, &found.count);
        return {status, found};
    }

    // Slots and names.
    result<om_description> card(om_object o) const noexcept { return with<om_description>(om_card, o.slot, o.generation); }
    result<om_references> counts(om_object o) const noexcept { return with<om_references>(om_counts, o.slot, o.generation); }
    result<om_reaping> reap(std::uint32_t slot) noexcept { return with<om_reaping>(om_reap, slot); }
    // A script of a manager of its own: the bytes of its answers that would fit, or what they need.
    static result<std::size_t> script(const om_limits &limits, text script, span<char> answers) noexcept {
        std::size_t written = 0;
        std::uint32_t status = om_script(&limits, script.data(), script.size(), answers.data(), answers.size(), &written);
        return {status, written};
    }
    // Calls recorded as lines of a script with their answers; what was recorded since, as many whole lines as fit.
    status_only record(bool on) noexcept { return status_only(om_record(&m_, on)); }
    result<std::size_t> take_record(span<char> lines) noexcept {
        std::size_t written = 0;
        std::uint32_t status = om_take_record(&m_, lines.data(), lines.size(), &written);
        return {status, written};
    }
    // The whole manager as bytes: how many they are, also where they don't fit (OM_ERROR_INSUFFICIENT_BUFFER).
    result<std::size_t> save(span<unsigned char> bytes) const noexcept {
        std::size_t written = 0;
        std::uint32_t status = om_save(&m_, bytes.data(), bytes.size(), &written);
        return {status, written};
    }
    // All that it holds, as lines for a person, told as a savestate is.
    result<std::size_t> dump(span<char> lines) const noexcept {
        std::size_t written = 0;
        std::uint32_t status = om_dump(&m_, lines.data(), lines.size(), &written);
        return {status, written};
    }
    std::size_t directory_len() const noexcept { return om_directory_len(&m_); }
    result<om_row> directory_at(std::size_t at, span<char> name) const noexcept {
        om_row row{};
        std::uint32_t status = om_directory_at(&m_, at, name.data(), name.size(), &row);
        return {status, row};
    }
    result<om_handle_info> find(std::uint32_t session, text name) const noexcept {
        return with<om_handle_info>(om_find, session, name.data(), name.size());
    }
    // (with no byte where it has none)
    result<named> name_of(om_object o) const noexcept {
        named found{};
        std::uint32_t status = om_name_of(&m_, o.slot, o.generation, found.bytes, OM_NAME_MOST, &found);
        return {status, found};
    }

    // Readers.
    reader new_reader() {
        om_reader r{nullptr};
        std::uint32_t status = om_reader_new(&m_, &r);
        if (status != OM_SUCCESS) {
            fail(status);
        }
        return reader(r);
    }
    result<om_description> inspect(const reader &r, om_object o) const noexcept {
        om_description d{};
        std::uint32_t status = om_inspect(&m_, r.get(), o.slot, o.generation, &d);
        return {status, d};
    }

private:
    static manager made(std::uint32_t status, const om_manager &m) {
        if (status != OM_SUCCESS) {
            fail(status);
        }
        return manager(m);
    }
    // A call whose last parameter is where its value goes.
    template <class T, class Call, class... Words> result<T> with(Call call, Words... words) const noexcept {
        T value{};
        std::uint32_t status = call(&m_, words..., &value);
        return {status, value};
    }
    template <class Call, class... Words>
    result<om_opening> create(Call call, std::uint32_t thread, om_making making, text name, Words... words) noexcept {
        making.named = making.named || name.size() > 0;
        return with<om_opening>(call, thread, &making, name.data(), name.size(), words...);
    }

    mutable om_manager m_;
};

} // namespace obman

#undef OBMAN_NODISCARD

#endif
