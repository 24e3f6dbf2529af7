"""The binding against the library: OBMAN=build/libobman.so python3 -m unittest"""

import unittest

import obman


class Calls(unittest.TestCase):
    def test_a_child_inherits_and_sets_what_its_parent_waits_for(self):
        with obman.Manager() as m:
            parent = m.spawn(1)
            event = m.create_event(parent.thread, name="ready", inherit=True)
            child = m.child(parent.thread, True)
            self.assertEqual(m.resolve(child.process, event.handle), event.object)
            waits = m.wait(parent.thread, [event.handle])
            self.assertEqual(waits, obman.Pending(1))
            with self.assertRaises(obman.Error) as refused:
                m.close(parent.thread, event.handle)
            self.assertEqual((refused.exception.number, str(refused.exception)), (170, "ERROR_BUSY (170)"))
            m.set_event(child.thread, event.handle)
            self.assertEqual([(a.wait, a.thread, a.code) for a in m.answers()], [(1, parent.thread, obman.WAIT_OBJECT_0)])

    def test_a_child_inherits_what_is_listed(self):
        with obman.Manager() as m:
            parent = m.spawn(1)
            one, other = (m.create_event(parent.thread, inherit=True).handle for _ in range(2))
            own = m.create_event(parent.thread).handle
            m.set_handle_flags(parent.thread, one, obman.HANDLE_FLAG_PROTECT_FROM_CLOSE, obman.HANDLE_FLAG_PROTECT_FROM_CLOSE)
            child = m.child_with(parent.thread, [other + 1])
            self.assertEqual([it.handle for it in m.handles(child.process)], [other])
            self.assertEqual(list(m.handles(m.child_with(parent.thread, []).process)), [])
            for handles in [[own], [other, 400]]:
                with self.assertRaises(obman.Error) as refused:
                    m.child_with(parent.thread, handles)
                self.assertEqual(refused.exception.number, 87)
            self.assertEqual(len(list(m.processes())), 3)

    def test_a_mutex_is_abandoned(self):
        with obman.Manager() as m:
            first, second = m.spawn(1), m.spawn(1)
            mutex = m.create_mutex(first.thread, name="Local\\m", owned=True)
            again = m.create_mutex(second.thread, name="m")
            self.assertTrue(again.existed and not mutex.existed and again.object == mutex.object)
            m.exit(first.process)
            self.assertTrue(m.state(mutex.object).abandoned)
            self.assertEqual(m.wait(second.thread, [again.handle]), obman.Over(obman.WAIT_ABANDONED_0))
            owned = m.handle_state(second.process, again.handle)
            self.assertEqual((owned.kind, owned.owner, owned.count, owned.signaled), (obman.MUTEX, second.thread, 1, False))
            for process, handle, number in [(second.process, again.handle + 4, 6), (first.process, mutex.handle, 87)]:
                with self.assertRaises(obman.Error) as refused:
                    m.handle_state(process, handle)
                self.assertEqual(refused.exception.number, number)

    def test_time(self):
        with obman.Manager() as m:
            member = m.spawn(1)
            event = m.create_event(member.thread)
            self.assertIsNone(m.next_due())
            self.assertEqual((m.limits().slots, m.limits().threads), (64, 256))
            m.wait(member.thread, [event.handle], milliseconds=2)
            m.tick(m.next_due())
            self.assertEqual((m.now(), [answer.code for answer in m.answers()]), (20_000, [obman.WAIT_TIMEOUT]))
            # the wait's time is up before the timer comes
            timer = m.create_timer(member.thread)
            m.set_timer(member.thread, timer.handle, 40_000)
            m.wait(member.thread, [timer.handle], milliseconds=1)
            m.advance(50_000)
            self.assertEqual((m.now(), [answer.code for answer in m.answers()]), (50_000, [obman.WAIT_TIMEOUT]))
            with self.assertRaises(obman.Error) as refused:
                m.advance(49_999)
            self.assertEqual((refused.exception.number, m.now()), (87, 50_000))

    def test_who_waits_for_whom(self):
        with obman.Manager() as m:
            first, second = m.spawn(1), m.spawn(1)
            mutex = m.create_mutex(first.thread, name="m", owned=True)
            again = m.open_mutex(second.thread, obman.SYNCHRONIZE, False, "m")
            event = m.create_event(second.thread, manual=True, set=True)
            wait = m.wait(second.thread, [event.handle, again.handle], all=True, milliseconds=3).wait
            self.assertEqual(m.objects_waited_for(m.wait_of(second.thread)), (second.thread, True, 30_000, [event.object, mutex.object]))
            m.expire(wait)
            self.assertIsNone(m.objects_waited_for(wait))
            self.assertEqual(len(list(m.answers())), 1)
            wait = m.wait(second.thread, [again.handle]).wait
            waited = m.objects_waited_for(wait)
            self.assertEqual((waited.all, waited.deadline), (False, None))
            self.assertEqual([m.state(o).owner for o in waited.objects], [first.thread])

    def test_times_and_waits(self):
        with obman.Manager() as m:
            first = m.spawn(1)
            second = m.thread(first.process)
            event, mutex, timer = m.create_event(first.thread), m.create_mutex(first.thread, owned=True), m.create_timer(first.thread)
            m.alert(m.sleep(second, obman.FOREVER).wait)
            self.assertEqual([answer.code for answer in m.answers()], [obman.WAIT_IO_COMPLETION])
            self.assertEqual(m.sleep(second, obman.due_in(0)), obman.Over(obman.WAIT_TIMEOUT))
            wait = m.wait_until(second, [mutex.handle], 5).wait
            self.assertEqual(m.signal_and_wait(first.thread, mutex.handle, event.handle, 0), obman.Over(obman.WAIT_TIMEOUT))
            self.assertEqual(m.wait_result(wait), obman.Over(obman.WAIT_OBJECT_0))
            wait = m.signal_and_wait(second, mutex.handle, event.handle, obman.due_in(obman.INFINITE)).wait
            m.pulse_event(first.thread, event.handle)
            self.assertEqual(m.wait_result(wait), obman.Over(obman.WAIT_OBJECT_0))
            m.set_periodic_timer(first.thread, timer.handle, -5, 1)
            m.tick(25_000)
            self.assertEqual((m.wait(second, [timer.handle], milliseconds=0), m.next_due()), (obman.Over(obman.WAIT_OBJECT_0), 30_005))

    def test_numbers_come_back(self):
        with obman.Manager(obman.default_limits(threads=2, waits=1), reuse=True) as m:
            first = m.spawn(1)
            event = m.create_event(first.thread)
            for _ in range(1000):
                second = m.thread(first.process)
                with self.assertRaises(obman.Error) as refused:
                    m.thread(first.process)
                self.assertEqual((second, refused.exception.number, m.room().threads), (2, 1450, 0))
                self.assertEqual((m.wait(second, [event.handle]), m.wait_of(second), m.is_pending(second)), (obman.Pending(second), second, True))
                m.set_event(first.thread, event.handle)
                self.assertEqual([(a.wait, a.thread, a.code) for a in m.answers()], [(second, second, obman.WAIT_OBJECT_0)])
                m.end_thread(second)
            with obman.Manager.load(m.save()) as again:
                room = again.room(first.process)
                self.assertEqual((room.slots, room.processes, room.threads, room.handles), (63, 63, 1, 1023))
                self.assertEqual((again.thread(first.process), again.limits().waits), (2, 1))

    def test_handles_that_repeat(self):
        with obman.Manager(repeats=True) as m:
            first = m.spawn(1)
            event = m.create_event(first.thread)
            self.assertEqual(m.wait(m.thread(first.process), [event.handle] * 2), obman.Pending(1))
            with obman.Manager.load(m.save()) as again:
                again.set_event(first.thread, event.handle)
                self.assertEqual(again.wait_result(1), obman.Over(obman.WAIT_OBJECT_0))
                with self.assertRaises(obman.Error) as refused:
                    again.wait(first.thread, [event.handle] * 2, all=True)
                self.assertEqual(refused.exception.number, 87)

    def test_walks_and_ends(self):
        with obman.Manager(obman.default_limits(slots=2)) as m:
            member = m.spawn(7)
            event = m.create_event(member.thread, name="a")
            self.assertEqual((list(m.processes()), list(m.threads(member.process))), ([1], [1]))
            self.assertEqual([entry.handle for entry in m.handles(member.process)], [event.handle])
            self.assertEqual([name.base for name in m.names()], [b"a"])
            self.assertEqual(m.session_of(member.process), 7)
            with m.reader() as reader:
                reader.pin(event.object)
                m.close(member.thread, event.handle)
                self.assertEqual([(end.outcome, end.pins) for end in m.ended()], [(obman.HELD, 1)])
                self.assertEqual(m.inspect(reader, event.object).kind, obman.EVENT)
            self.assertEqual([end.outcome for end in m.ended()], [obman.FREED])
            self.assertEqual(list(m.objects()), [])

    def test_names(self):
        with obman.Manager() as m:
            first = m.spawn(7)
            event, other = m.create_event(first.thread, name="a"), m.thread(first.process)
            found = m.find(7, "Local\\a")
            self.assertEqual((found.object, found.kind, found.access), (event.object, obman.EVENT, obman.EVENT_ALL_ACCESS))
            self.assertEqual(m.name_of(event.object), obman.Name(event.object, 7, b"a"))
            m.wait(first.thread, [event.handle])
            m.close(other, event.handle)
            # a wait keeps the object, but its name went with its last handle
            self.assertEqual((m.state(event.object).kind, m.name_of(event.object)), (obman.EVENT, None))
            gone = obman.Object(9, 1)
            for number, call in [(2, lambda: m.find(7, "a")), (3, lambda: m.find(7, "a\\b")), (6, lambda: m.name_of(gone))]:
                with self.assertRaises(obman.Error) as refused:
                    call()
                self.assertEqual(refused.exception.number, number)

    def test_what_ended_is_told_once_however_many_are_pinned(self):
        with obman.Manager(obman.default_limits(slots=200)) as m:
            thread, readers = m.spawn(1).thread, [m.reader() for _ in range(7)]
            made = [m.create_event(thread) for _ in range(200)]
            for at in range(100):
                readers[at // 16].pin(made[2 * at].object)
            for one in made:
                m.close(thread, one.handle)
            self.assertEqual([(end.object.slot, end.outcome) for end in m.ended()], [(at, obman.FREED if at % 2 else obman.HELD) for at in range(200)])
            self.assertEqual([end.object.slot for end in m.ended()], list(range(0, 200, 2)))

    def test_a_script(self):
        self.assertEqual(obman.script("spawn 1\nevent t1 auto set\n"), b"p1 t1\nh4 new s0.1\n")

    def test_a_record_is_a_script(self):
        with obman.Manager() as m:
            m.record()
            thread = m.spawn(1).thread
            m.create_event(thread)
            m.record(False)
            m.create_event(thread)
            self.assertEqual(m.recorded(), b"spawn 1\n# p1 t1\nevent t1 auto clear\n# h4 new s0.1\n")
            self.assertEqual(m.recorded(), b"")

    def test_a_savestate_is_loaded_again(self):
        with obman.Manager() as m:
            member = m.spawn(1)
            event = m.create_event(member.thread, name="a")
            m.wait(member.thread, [event.handle], milliseconds=2)
            saved = m.save()
            with obman.Manager.load(saved) as again:
                self.assertEqual(again.save(), saved)
                for each in m, again:
                    each.tick(20_000)
                    self.assertEqual([(a.wait, a.code) for a in each.answers()], [(1, obman.WAIT_TIMEOUT)])
                self.assertEqual(again.save(), m.save())
        for other in b"", saved[:-1], saved + b"\0", saved[:-1] + bytes([saved[-1] ^ 1]):
            with self.assertRaises(obman.Error) as refused:
                obman.Manager.load(other)
            self.assertEqual(refused.exception.number, 13)

    def test_a_library_of_this_release(self):
        self.assertEqual(obman.version(), obman.VERSION)
        self.assertEqual([obman.error_name(number) for number in (0, 183, 258, 87, 4)], ["ERROR_SUCCESS", "ERROR_ALREADY_EXISTS", "WAIT_TIMEOUT", "ERROR_INVALID_PARAMETER", "unknown"])
        with obman.Manager(obman.most_limits(slots=1)) as m:
            self.assertEqual(m.spawn(1).thread, 1)

    def test_native_numbers(self):
        self.assertEqual([obman.nt_status(number) for number in (0, 6, 183, 997, 13)], [0, 0xC0000008, 0x40000000, 0x103, 0xC0000001])
        generic = lambda kind: [obman.map_access(kind, 1 << bit) for bit in (31, 30, 29, 28)]
        self.assertEqual(generic(obman.EVENT), [0x20001, 0x20002, 0x120000, 0x1F0003])
        self.assertEqual(generic(obman.MUTEX), [0x20001, 0x20000, 0x120000, 0x1F0001])
        self.assertEqual(generic(obman.HOST), [0x20000, 0x20000, 0x120000, 0x1FFFFF])


if __name__ == "__main__":
    unittest.main()
