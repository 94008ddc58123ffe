"""A session over a server that the test itself plays."""

import json
import queue
import unittest
from unittest import mock

from holls import server
from holls.session import Session
from holls.sweep import Sweep
from holls.theory import Theory

OK = b'{"ok":true}'
MEMORY = b'{"error":9,"ok":false,"text":"memory"}'
SERVED = frozenset({"new_theory", "drop_theory", "insert", "replace", "remove", "report"})


class Played:
    """A server that keeps what is sent to it, and answers what the test says."""

    made = []

    def __init__(self, program, events):
        self.sent = []
        self.is_stopped = False
        Played.made.append(self)

    def send(self, lines):
        self.sent += lines.split(b"\n")

    def stop(self):
        self.is_stopped = True


class Short(unittest.TestCase):
    """An edit before other commands finds no memory."""

    def setUp(self):
        Played.made = []
        patch = mock.patch("holls.session.Server", Played)
        patch.start()
        self.addCleanup(patch.stop)
        self.theory = Theory("A")
        self.theory.want([("g N `p ==> p`", False), ("e DISCH_TAC", False)])
        self.session = Session(["program"], queue.Queue(), SERVED, Sweep(), lambda: None, 10)
        self.session.want([self.theory])
        self.answered = 0
        self.answer_all(OK)
        self.theory.want([("g N `q ==> q`", False), ("e DISCH_TAC", False)])
        self.session.want([self.theory])

    def answer(self, reply):
        """Answers the next line of the newest server."""
        last = Played.made[-1]
        self.answered += 1
        self.session.hear(server.Lines(last, [reply]))

    def answer_all(self, reply):
        while self.answered < len(Played.made[-1].sent):
            self.answer(reply)

    def sent(self):
        """What the newest server was sent and hasn't answered."""
        return [json.loads(line) for line in Played.made[-1].sent[self.answered:]]

    def test_an_edit_that_found_no_memory_is_sent_once_more_to_the_same_program(self):
        edits = self.sent()
        self.assertEqual([edit["op"] for edit in edits], ["replace"])
        self.answer(MEMORY)
        self.assertEqual((self.sent(), len(Played.made), Played.made[0].is_stopped), (edits, 1, False))
        self.answer_all(OK)
        self.assertTrue(self.session.is_idle)
        self.assertEqual((self.session.failure, len(Played.made)), (None, 1))

    def test_one_that_found_none_twice_is_sent_to_a_new_program(self):
        self.answer(MEMORY)
        self.answer(MEMORY)
        self.assertEqual((len(Played.made), Played.made[0].is_stopped), (2, True))
        self.answered = 0
        self.answer_all(OK)
        self.assertTrue(self.session.is_idle)
        self.assertIsNone(self.session.failure)


if __name__ == "__main__":
    unittest.main()
