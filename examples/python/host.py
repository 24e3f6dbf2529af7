"""A host: one guest sets a timer and hands out work when it fires, another works. Guests are generators; the time is virtual."""

import pathlib
import sys

sys.path.insert(0, str(pathlib.Path(__file__).resolve().parents[2] / "bindings" / "python"))
import obman  # noqa: E402


def foreman(m, me, timer, work):
    for _ in range(2):
        m.set_timer(me.thread, timer, -50_000)
        yield m.wait(me.thread, [timer])
        m.release_semaphore(me.thread, work, 2)


def worker(m, me, timer, work):
    for _ in range(4):
        yield m.wait(me.thread, [work])
        print(f"work at {m.now() // 10_000} ms")


def main():
    with obman.Manager() as m:
        first = m.spawn(1)
        timer = m.create_timer(first.thread, inherit=True).handle
        work = m.create_semaphore(first.thread, 0, 4, inherit=True).handle
        runnable, asleep = [], {}
        for role in (foreman, worker):
            me = m.child(first.thread, True)
            runnable.append((me, role(m, me, timer, work)))
        m.exit(first.process)
        while True:
            if runnable:
                me, steps = runnable.pop(0)
                stands = next(steps, None)
                if isinstance(stands, obman.Pending):
                    asleep[me.thread] = me, steps
                elif stands is None:
                    m.exit(me.process)
                else:
                    runnable.append((me, steps))
            elif (moment := m.next_due()) is not None:
                m.tick(moment)
            else:
                return
            # behind each call: who was answered goes on, and the slots of what ended are free again
            runnable += [asleep.pop(answer.thread) for answer in m.answers()]
            for ended in m.ended():
                print(f"s{ended.object.slot}.{ended.object.generation} ended")


main()
