// A host in C++11: one guest sets a timer and hands out work when it fires, another works. The time is virtual.
#include <cstdio>
#include <obman.hpp>
#include <vector>

struct guest {
    om_member self;
    void (*step)(guest &);
    int rounds;
    bool has_waited, is_asleep, is_over;
};

static obman::manager m;
static om_opening timer, work; // each guest has inherited both
static std::vector<guest> guests;

// Whether the guest has what it waits for: at once, or now that its wait was answered.
static bool has(guest &g, om_opening o) {
    g.is_asleep = !g.has_waited && m.wait(g.self.thread, o.handle).is_pending();
    g.has_waited = g.is_asleep;
    return !g.is_asleep;
}

static void end_after(guest &g, int rounds) {
    if ((g.is_over = ++g.rounds == rounds)) {
        m.exit(g.self.process).value();
    }
}

static void foreman(guest &g) {
    if (!g.has_waited) {
        m.set_timer(g.self.thread, timer.handle, -50000).value();
    }
    if (has(g, timer)) {
        m.release_semaphore(g.self.thread, work.handle, 2).value();
        end_after(g, 2);
    }
}

static void worker(guest &g) {
    if (has(g, work)) {
        std::printf("work at %u ms\n", static_cast<unsigned>(m.now() / 10000));
        end_after(g, 4);
    }
}

// Behind each call: who was answered goes on, and the slots of what ended are free again.
static void look_round() {
    for (const om_answer &a : m.answers()) {
        for (guest &g : guests) {
            g.is_asleep = g.is_asleep && g.self.thread != a.thread;
        }
    }
    for (const om_reaping &r : m.ended()) {
        std::printf("s%u.%u ended\n", r.object.slot, r.object.generation);
    }
}

int main() {
    om_member host = m.spawn(1).value();
    timer = m.create_timer(host.thread, om_inherited(), "", false).value();
    work = m.create_semaphore(host.thread, om_inherited(), "", 0, 4).value();
    for (auto step : {foreman, worker}) {
        guests.push_back({m.child(host.thread, true).value(), step, 0, false, false, false});
    }
    m.exit(host.process).value();
    for (bool goes_on = true; goes_on; look_round()) {
        auto moment = m.next_due();
        for (guest &g : guests) {
            if ((goes_on = !g.is_asleep && !g.is_over)) {
                g.step(g);
                break;
            }
        }
        if (!goes_on && moment) {
            m.tick(*moment).value();
            goes_on = true;
        }
    }
}
