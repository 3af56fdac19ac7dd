#!/usr/bin/env python3
"""Tests of clio.py. CLIO_NODE names a node as HOST:PORT, and CLIO_OBJECTS one with a key-value object of 3 records; without
them what needs them is left out. Each test has a client number and a process of its own.
"""
import ctypes
import os
import signal
import socket
import struct
import threading
import time
import unittest

import clio
from clio import Fault, NotIssued, Perm, Refusal, Refused, TimedOut

# Worked frames of docs/FORMATS.md.
ALLOC = bytes.fromhex("434c01010001000100000000000000010000000000000001" + "0003000103")
ITS_REPLY = bytes.fromhex("434c01810001000100000000000000010000000000000001" + "00050000001000")


def reply(request, body):
    """The reply with this body to a request."""
    return request[:3] + bytes([request[3] + 128]) + request[4:24] + struct.pack(">H", len(body)) + body


def pattern(length):
    return bytes(at * 31 // 8 % 256 for at in range(length))


class WithNode(unittest.TestCase):
    """Tests at a node."""

    variable = "CLIO_NODE"

    def client(self, number, **words):
        if self.variable not in os.environ:
            self.skipTest(f"{self.variable} names no node")
        host, port = os.environ[self.variable].split(":")
        client = clio.Client(host, int(port), client=number, process=number, **words)
        self.addCleanup(client.close)
        return client

    def assertFault(self, fault, call, *arguments):
        with self.assertRaises(NotIssued) as raised:
            call(*arguments)
        self.assertIs(raised.exception.fault, fault)

    def assertRefused(self, refusal, call, *arguments):
        with self.assertRaises(Refused) as raised:
            call(*arguments)
        self.assertIs(raised.exception.refusal, refusal)


class TestMachine(WithNode):
    def setUp(self):
        self.machine = clio.Machine(1, 1, 1)

    def test_an_alloc_and_its_reply(self):
        machine = self.machine
        self.assertTrue(machine.is_empty())
        self.assertEqual(machine.alloc(1, Perm.READ_WRITE), 1)
        self.assertEqual(machine.poll(0), ALLOC)
        self.assertIsNone(machine.poll(0))
        self.assertIsNone(machine.done())
        self.assertFalse(machine.hear(b"no frame"))
        self.assertTrue(machine.hear(ITS_REPLY))
        self.assertFalse(machine.hear(ITS_REPLY))
        self.assertEqual(machine.done(), (1, None, 0x1000, b""))
        self.assertTrue(machine.is_empty())

    def test_ids_begin_where_they_are_told(self):
        for first in (1, 2**63):
            machine = clio.Machine(1, 1, first)
            machine.lock(0x1000)
            self.assertEqual(machine.poll(0)[8:16], first.to_bytes(8, "big"))
            self.assertEqual(machine.poll(100)[8:16], (first + 1).to_bytes(8, "big"))
        for words in ((1, 1, 0), (1, 1, 2**63 + 1), (1, 0, 1), (1, 65_280, 1)):
            self.assertFault(Fault.BAD_ARGUMENT, clio.Machine, *words)
        for words in ((-1, 1, 1), (65_536, 1, 1), (1, 65_537, 1), (1, 1, 2**64 + 1)):
            self.assertFault(Fault.OUT_OF_RANGE, clio.Machine, *words)

    def test_the_clock_gives_a_first_id_that_rises(self):
        earlier = clio.first_id()
        time.sleep(0.002)
        self.assertGreater(clio.first_id(), earlier + 1_000_000)
        self.assertLessEqual(clio.first_id(), 2**63)

    def test_dependent_calls_wait(self):
        machine = self.machine
        machine.write(0x1000, b"abc")
        machine.read(0x1000, 3)
        machine.read(0x2000, 3)
        write, other = machine.poll(0), machine.poll(0)
        self.assertEqual((write[3], other[3], other[26:30]), (4, 3, b"\0\0\x20\0"))
        self.assertIsNone(machine.poll(0))
        self.assertTrue(machine.hear(reply(write, b"\0")))
        read = machine.poll(0)
        self.assertFalse(machine.hear(reply(read, b"\0abcd")))
        self.assertTrue(machine.hear(reply(read, b"\0abc")))
        self.assertEqual([machine.done(), machine.done(), machine.done()], [(1, None, 0, b""), (2, None, 3, b"abc"), None])

    def test_a_call_is_refused_or_times_out(self):
        machine = self.machine
        machine.free(0x1000, 1)
        machine.hear(reply(machine.poll(7), b"\1"))
        self.assertIs(machine.done().error.refusal, Refusal.NO_MAPPING)
        machine.offload(0, 4, b"", 4)
        sent = [moment for moment in range(8, 500) if machine.poll(moment)]
        self.assertEqual(sent, [8, 108, 208, 308])
        self.assertIsInstance(machine.done().error, TimedOut)

    def test_a_closed_machine_raises(self):
        self.machine.close()
        self.assertTrue(self.machine.is_closed())
        for call in (self.machine.fence, lambda: self.machine.poll(0), self.machine.is_full):
            self.assertRaises(ctypes.ArgumentError, call)
        self.assertRaises(ValueError, clio.Machine(1, 1, 1).alloc, 1, 4)

    def test_faults(self):
        machine = self.machine
        for fault, call, *words in [
            (Fault.EMPTY, machine.read, 0x1000, 0),
            (Fault.EMPTY, machine.write, 0x1000, b""),
            (Fault.TOO_LONG, machine.write, 0x1000, bytes(65_537)),
            (Fault.TOO_LONG, machine.alloc, 1025),
            (Fault.TOO_LONG, machine.offload, 0, 1, bytes(1025), 0),
            (Fault.BAD_ADDRESS, machine.read, 2**28 - 1, 2),
            (Fault.MISALIGNED, machine.unlock, 0x1004),
            (Fault.MISALIGNED, machine.free, 0x1004, 1),
            (Fault.OUT_OF_RANGE, machine.read, 2**32 + 0x1000, 1),
            (Fault.OUT_OF_RANGE, machine.read, -1, 1),
            (Fault.OUT_OF_RANGE, machine.offload, 256, 1, b"", 0),
        ]:
            self.assertFault(fault, call, *words)
        for number in range(1, 257):
            self.assertFalse(machine.is_full())
            self.assertEqual(machine.fence(), number)
        self.assertTrue(machine.is_full())
        self.assertFault(Fault.QUEUE_FULL, machine.fence)


class TestClient(WithNode):
    def test_bytes_of_any_length(self):
        r = self.client(301).alloc(40)
        self.assertEqual((len(r), r.pages), (163_840, 40))
        for offset, length in [(0, 0), (0, 1), (4095, 2), (17, 1024), (1, 65_536), (5, 150_000), (163_840, 0)]:
            data = pattern(length)
            r.write(offset, data)
            self.assertTrue(r.read(offset, length) == data, (offset, length))
        for offset, length in [(163_840, 1), (163_839, 2), (-1, 1), (0, 163_841)]:
            self.assertFault(Fault.OUT_OF_RANGE, r.read, offset, length)
            self.assertFault(Fault.OUT_OF_RANGE, r.write, offset, bytes(length))
        r.write(0, bytearray(b"any bytes"))
        r.write(0, memoryview(b"ANY"))
        self.assertEqual(r.read(0, 9), b"ANY bytes")
        r.free()

    def test_words(self):
        r = self.client(302).alloc(1)
        word = r.word(8)
        self.assertEqual([word.fetch_add(5), word.fetch_add(-1), word.load()], [0, 5, 4])
        self.assertEqual([word.compare_exchange(4, 0x0102030405060708), word.compare_exchange(4, 1)], [4, 0x0102030405060708])
        self.assertEqual(r.read(8, 8), bytes(range(8, 0, -1)))
        word.store(2**64 - 1)
        self.assertEqual(word.load(), 2**64 - 1)
        self.assertFault(Fault.MISALIGNED, r.word, 4)
        self.assertFault(Fault.OUT_OF_RANGE, r.word, 4096)

    def test_locks(self):
        word = self.client(303).alloc(1).word(0)
        with self.assertRaises(ZeroDivisionError), word.lock():
            self.assertIsNone(word.try_lock())
            self.assertEqual(word.load(), 1)
            1 / 0
        guard = word.try_lock()
        self.assertIsNotNone(guard)
        guard.unlock()
        self.assertEqual(word.load(), 0)

    def test_refusals(self):
        c = self.client(304)
        r = c.alloc(2, Perm.READ_ONLY)
        self.assertRefused(Refusal.NO_PERMISSION, r.write, 0, b"x")
        r.free()
        self.assertRefused(Refusal.NO_MAPPING, r.read, 0, 1)
        self.assertRefused(Refusal.NO_MAPPING, r.free)
        self.assertRefused(Refusal.NO_OFFLOAD, c.kv(99).count)
        self.assertFault(Fault.EMPTY, c.alloc, 0)
        c.fence()
        c.close()
        self.assertRaises(ValueError, c.fence)

    def test_a_batch_keeps_the_order_of_calls_that_meet(self):
        c = self.client(305)
        r, data = c.alloc(64), pattern(200_000)
        with c.batch() as b:
            adds = [b.fetch_add(r.word(at % 3 * 4096)) for at in range(300)]
            first = b.read(r, 0, 8)
            b.fence()
            written = b.write(r, 0, data)
            middle = b.read(r, 66_000, 70_000)
            words = [b.compare_exchange(r.word(204_800), 0, 9), b.compare_exchange(r.word(204_800), 0, 10)]
            self.assertRaises(RuntimeError, lambda: first.value)
        self.assertEqual([add.value for add in adds], [at // 3 for at in range(300)])
        self.assertIsNone(written.value)
        self.assertEqual(first.value, (100).to_bytes(8, "little"))
        self.assertTrue(middle.value == data[66_000:136_000])
        self.assertEqual([word.value for word in words], [0, 9])

    def test_a_batch_tells_the_first_error_and_each(self):
        c = self.client(306)
        r = c.alloc(1)
        absent = c.range(r.addr + 0x100000, 1)
        with c.batch():
            pass
        with self.assertRaises(Refused), c.batch() as b:
            b.write(r, 0, b"kept")
            refused = b.read(absent, 0, 1)
            b.write(r, 4, b"too")
            read = b.read(r, 0, 7)
        self.assertEqual(read.value, b"kepttoo")
        self.assertRefused(Refusal.NO_MAPPING, lambda: refused.value)
        with self.assertRaises(ZeroDivisionError), c.batch() as b:
            b.write(r, 0, b"lost")
            1 / 0
        with self.assertRaises(NotIssued), c.batch() as b:
            b.write(r, 0, b"lost")
            b.read(r, 4096, 1)
        self.assertEqual(r.read(0, 7), b"kepttoo")

    def test_a_later_run_under_the_same_number(self):
        addresses = []
        for run in range(3):
            c = self.client(307)
            addresses.append(c.alloc(1).addr)
            self.assertEqual(c.range(addresses[0], 1).word(0).fetch_add(), run)
            c.close()
        self.assertEqual(len(set(addresses)), 3)

    def test_an_interrupt_leaves_a_client_that_works(self):
        # What an interrupt loses is sent again after 100 ticks.
        c = self.client(308, tick=0.004)
        r = c.alloc(40)

        class Stop(Exception):
            pass

        # A signal may be told late, after the write: then nothing is raised.
        is_armed = False

        def stop(*_):
            if is_armed:
                raise Stop

        before = signal.signal(signal.SIGALRM, stop)
        self.addCleanup(signal.signal, signal.SIGALRM, before)
        stopped = 0
        for turn in range(1, 31):
            data = bytes([turn]) * 150_000
            try:
                is_armed = True
                signal.setitimer(signal.ITIMER_REAL, turn / 5_000)
                r.write(0, data)
                is_armed = False
            except Stop:
                stopped += 1
            is_armed = False
            signal.setitimer(signal.ITIMER_REAL, 0)
            word = r.word(155_648)
            self.assertEqual(word.fetch_add(), turn - 1)
            r.write(0, data)
            self.assertTrue(r.read(0, len(data)) == data)
        self.assertGreater(stopped, 0)

    def test_threads_take_turns(self):
        c = self.client(309)
        r = c.alloc(8)

        def work(at):
            for turn in range(50):
                r.word(at * 4096).store(turn)
                sums[at] += r.word(at * 4096).load()

        sums = [0] * 4
        threads = [threading.Thread(target=work, args=[at]) for at in range(4)]
        for thread in threads:
            thread.start()
        for thread in threads:
            thread.join()
        self.assertEqual(sums, [sum(range(50))] * 4)

    def test_an_absent_node_is_a_call_that_times_out(self):
        # Ticks of a millisecond, so that 400 of them pass soon.
        for is_there in (True, False):
            with socket.socket(socket.AF_INET, socket.SOCK_DGRAM) as mute:
                mute.bind(("127.0.0.1", 0))
                port = mute.getsockname()[1]
                if not is_there:
                    mute.close()
                with clio.Client("127.0.0.1", port, client=1, tick=0.001) as c:
                    self.assertRaises(TimedOut, c.alloc, 1)


class TestObjects(WithNode):
    variable = "CLIO_OBJECTS"

    def test_a_key_value_object(self):
        c = self.client(310)
        kv = c.kv(0)
        self.assertEqual((kv.count(), kv.get(b"a"), kv.delete(b"a")), (0, None, False))
        for key in (b"a", b"b", b"c"):
            kv.put(key, key * 256)
        kv.put(b"a", b"")
        self.assertRefused(Refusal.OBJECT_FULL, kv.put, b"d", b"1")
        for key, value in [(b"", b""), (b"k" * 33, b""), (b"k" * 256, b""), (b"k", bytes(257))]:
            self.assertRefused(Refusal.BAD_OP, kv.put, key, value)
        self.assertFault(Fault.TOO_LONG, kv.put, b"k", bytes(1023))
        with c.batch() as b:
            tickets = [b.get(kv, b"a"), b.get(kv, b"b"), b.delete(kv, b"b"), b.delete(kv, b"b")]
            b.put(kv, b"d", b"new")
            tickets += [b.get(kv, b"b"), b.get(kv, b"d"), b.offload(0, 4, b"", 4)]
        wanted = [b"", b"b" * 256, True, False, None, b"new", b"\0\0\0\3"]
        self.assertEqual([ticket.value for ticket in tickets], wanted)
        self.assertEqual([kv.delete(key) for key in (b"a", b"c", b"d")], [True] * 3)
        self.assertEqual(kv.count(), 0)


if __name__ == "__main__":
    unittest.main()
