"""The machine of these scripts, and how ends differ from each other."""
from __future__ import annotations

import unittest

from atomic_tools.machine import Machine
from atomic_tools.orders import InOrder, differing, nearest
from atomic_tools.runs import calls_of
from atomic_tools.source import Source
from atomic_tools.states import Stuck

COUNTER = b"""class Counter { int n guarded_by this;
    atomic void inc() { synchronized (this) { this.n = this.n + 1; } } }
class Worker implements Runnable { final Counter c; Worker(Counter c) { this.c = c; }
    public void run() { this.c.inc(); } }
class Main { void main() {
    final Counter c = new Counter();
    new Thread(new Worker(c)).start();
    new Thread(new Worker(c)).start(); } }
"""
DIVIDED = (
    b"class Main { void main() { System.out.println(-7 / 2); System.out.println(-7 % 2); System.out.println(1 / 0); } }"
)


def ended(data: bytes) -> Machine:
    """The machine where each thread goes to its end, one after the other."""
    machine = Machine(Source(data))
    number = 0
    while number < len(machine.threads):
        while machine.can_step(number):
            machine.step(number)
        number += 1
    return machine


class Machines(unittest.TestCase):
    def test_a_state_has_its_text(self) -> None:
        wanted = "object 0:0 Main\nobject 0:1 Counter n=2\nobject 0:2 Worker c=0:1\nobject 0:3 Worker c=0:1\n"
        self.assertEqual(wanted + "thread 0 done\nthread 1 done\nthread 2 done\n", ended(COUNTER).text())

    def test_numbers_are_divided_toward_zero_and_a_fault_stops_the_thread(self) -> None:
        self.assertEqual("print -3\nprint -1\nobject 0:0 Main\nthread 0 faulted zero\n", ended(DIVIDED).text())

    def test_a_thread_waits_for_a_lock(self) -> None:
        machine = Machine(Source(COUNTER))
        while machine.can_step(0):
            machine.step(0)
        while machine.step(1).what != "acquire":
            pass
        with self.assertRaisesRegex(Stuck, "waits for 0:1 held by 1"):
            for _ in range(100):
                machine.step(2)
        self.assertFalse(machine.can_step(2))

    def test_a_thread_that_runs_stands_at_a_line(self) -> None:
        machine = Machine(Source(COUNTER))
        self.assertIsNone(machine.line_of(0))
        machine.step(0)
        self.assertEqual(6, machine.line_of(0))

    def test_a_schedule_tells_the_entry_that_cannot_step(self) -> None:
        with self.assertRaisesRegex(Stuck, "^entry 2: thread 7 is absent$"):
            Machine(Source(COUNTER)).run([0, 7])

    def test_calls_commit_at_their_first_step_that_cannot_go_right(self) -> None:
        machine = Machine(Source(COUNTER))
        steps = [machine.step(number) for number in (0, 1) for _ in iter(lambda: machine.can_step(number), False)]
        calls = calls_of(steps)
        self.assertEqual(["Counter.inc"], [call.method.full_name() for call in calls])
        self.assertEqual((True, "left"), (calls[0].whole, steps[calls[0].commit or 0].kind))


class Ends(unittest.TestCase):
    def test_lines_are_shown_where_states_differ(self) -> None:
        one = ["print 1", "object 0:0 Main", "object 0:1 Counter n=1", "thread 0 done"]
        two = ["print 1", "print 2", "object 0:0 Main", "object 0:1 Counter n=2", "thread 0 done"]
        wanted = [["", "print 2"], ["object 0:1 Counter n=1", "object 0:1 Counter n=2"]]
        self.assertEqual(wanted, differing([one, two]))

    def test_equal_states_differ_nowhere(self) -> None:
        self.assertEqual([], differing([["print 1"], ["print 1"]]))

    def test_the_nearest_ends_are_shown_each_once(self) -> None:
        ends = [(1, 9), (3, 7), (3, 7), (1, 7)]
        orders = [InOrder((one, 2), [f"print {one}", f"print {other}"]) for one, other in ends]
        self.assertEqual([orders[3], orders[0], orders[1]], nearest(["print 1", "print 7"], orders))


if __name__ == "__main__":
    unittest.main()
