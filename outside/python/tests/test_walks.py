"""Walks beside the run and the trail of the same path, and walks that are refused."""

import unittest

from leveretplate import Move, Refused, inputs, move_on, preview, read_trail, run_with_trail, walk_at_start, walk_points
from leveretplate.moves import records
from leveretplate.paths import follow
from leveretplate.slips import decode

from .commands import SAMPLES

NOTHING_CHOSEN = inputs.Choices()
DOCUMENT_01 = [2, 2, 2, 4]


class Walks(unittest.TestCase):
    def setUp(self) -> None:
        self.walk = walk_at_start([2, 2], [1, 1], [1, 0, 1, 0], DOCUMENT_01)

    def refusal(self, labels: list[int]) -> int:
        """The number by which each call on the walk refuses it, and leaves it as it was."""
        before, numbers = bytes(self.walk.walk), set()
        for call in (move_on, preview):
            with self.assertRaises(Refused) as caught:
                call(self.walk, labels)
            numbers.add(caught.exception.number)
        self.assertEqual(bytes(self.walk.walk), before)
        (number,) = numbers
        return number

    def test_walks_are_the_path(self) -> None:
        for path in sorted(SAMPLES.glob("*.txt")):
            with self.subTest(path.name):
                slip = decode(inputs.read(str(path), NOTHING_CHOSEN).slip)
                labels, grid = slip.label_table(), (slip.sizes, slip.divisions, slip.first())
                end, trail = run_with_trail(*grid, labels)
                walked = follow(slip, labels)
                self.assertEqual(walked.end, end)
                self.assertEqual(walked.moves, list(records(trail))[1:])
                self.assertEqual(walked.places, [read_trail(*grid, trail, record + 1) for record in range(end.places)])

    def test_preview_changes_nothing_and_tells_the_rule(self) -> None:
        for _ in range(4):
            before = bytes(self.walk.walk)
            coming = preview(self.walk, DOCUMENT_01)
            assert isinstance(coming, Move)
            self.assertEqual(bytes(self.walk.walk), before)
            self.assertEqual(move_on(self.walk, DOCUMENT_01), coming.rule)
        before = bytes(self.walk.walk)
        self.assertEqual(preview(self.walk, DOCUMENT_01), move_on(self.walk, DOCUMENT_01))
        self.assertEqual(bytes(self.walk.walk), before)

    def test_refusals(self) -> None:
        self.assertEqual(self.refusal([2, 2, 2]), 6)
        self.assertEqual(self.refusal([2, 2, 2, 5]), 7)
        self.assertEqual(self.refusal([2, 2, 2, 0]), 20)
        self.walk.walk.carried[0] = 0
        self.assertEqual(self.refusal([2, 2, 2, 0]), 16)
        self.walk.walk.carried[0] = 4
        self.walk.walk.labels_read = 2
        self.assertEqual(self.refusal(DOCUMENT_01), 20)
        self.walk.walk.labels_read = 1
        self.walk.walk.places = 0
        self.assertEqual(self.refusal(DOCUMENT_01), 20)
        self.walk.walk.places, self.walk.walk.present.count = 1, 0
        self.assertEqual(self.refusal(DOCUMENT_01), 20)
        with self.assertRaises(Refused) as caught:
            walk_points(self.walk, DOCUMENT_01)
        self.assertEqual(caught.exception.number, 20)
        with self.assertRaises(Refused) as caught:
            walk_at_start([2], [4], [2, 1], [1] * 5)
        self.assertEqual(caught.exception.number, 5)
