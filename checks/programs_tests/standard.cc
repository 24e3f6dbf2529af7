// The C++ library: threads that take turns, futures, exceptions that unwind and cross threads, deadlines, thread-local objects.
#include <chrono>
#include <condition_variable>
#include <future>
#include <iostream>
#include <map>
#include <mutex>
#include <stdexcept>
#include <string>
#include <thread>
#include <vector>

static std::mutex lock;
static std::condition_variable changed;
static int turn = 0;

struct told {
    const char *name;
    ~told() { std::cout << name << " goes\n"; }
};

// (mingw-w64 may free a thread's own objects before their destructors run, so this one reads nothing)
struct thread_end {
    ~thread_end() { std::cout << "a thread's own goes\n"; }
};

static int fail(int number) {
    told local{"a local"};
    if (number > 2) {
        throw std::runtime_error("number " + std::to_string(number));
    }
    return number;
}

static void take_turn(int mine, std::map<int, std::string> &out) {
    std::unique_lock<std::mutex> held(lock);
    changed.wait(held, [&] { return turn == mine; });
    out[mine] = "thread " + std::to_string(mine);
    turn++;
    changed.notify_all();
}

int main() {
    std::map<int, std::string> out;
    std::vector<std::thread> all;
    for (int i = 4; i >= 0; i--) {
        all.emplace_back([i, &out] { take_turn(i, out); });
    }
    for (auto &one : all) {
        one.join();
    }
    for (auto &[number, text] : out) {
        std::cout << number << ": " << text << "\n";
    }
    auto failing = std::async(std::launch::async, [] { return fail(3); });
    try {
        failing.get();
    } catch (std::exception &error) {
        std::cout << "caught " << error.what() << "\n";
    }
    std::thread([] { thread_local thread_end mine; (void)mine; }).join();
    auto before = std::chrono::steady_clock::now();
    std::unique_lock<std::mutex> held(lock);
    bool timed_out = changed.wait_for(held, std::chrono::milliseconds(50)) == std::cv_status::timeout;
    auto passed = std::chrono::steady_clock::now() - before;
    std::cout << "timed out " << timed_out << ", not early " << (passed >= std::chrono::milliseconds(49)) << "\n";
    try {
        std::thread().join();
    } catch (std::system_error &) {
        std::cout << "nothing to join\n";
    }
    return 7;
}
