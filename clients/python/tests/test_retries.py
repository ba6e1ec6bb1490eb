"""The pauses between attempts."""
from __future__ import annotations

import unittest
from itertools import islice

from pathd_client import NO_RETRY, Retry


class Pauses(unittest.TestCase):
    """How many pauses there are, and how long."""

    def test_one_less_than_attempts(self) -> None:
        self.assertEqual(len(list(Retry(attempts=4).pauses())), 3)
        self.assertEqual(list(NO_RETRY.pauses()), [])
        self.assertEqual(len(list(islice(Retry(attempts=None).pauses(), 1000))), 1000)

    def test_they_double_up_to_the_longest(self) -> None:
        for _ in range(100):
            pauses = Retry(attempts=6, first_pause=0.1, longest_pause=0.5).pauses()
            for pause, longest in zip(pauses, (0.1, 0.2, 0.4, 0.5, 0.5), strict=True):
                self.assertTrue(longest / 2 <= pause <= longest)

    def test_what_is_none(self) -> None:
        for attempts, first, longest in ((0, 0.1, 1.0), (1, -0.1, 1.0), (1, 2.0, 1.0)):
            with self.assertRaises(ValueError):
                Retry(attempts, first, longest)


if __name__ == "__main__":
    unittest.main()
