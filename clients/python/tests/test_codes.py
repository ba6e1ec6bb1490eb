"""The names of codes, beside docs/codes.csv."""
from __future__ import annotations

import csv
import re
import unittest
from pathlib import Path

from pathd_client import PASSING_CODES, Code, Refused

CODES = Path(__file__).resolve().parents[3] / "docs" / "codes.csv"


def names_by_code() -> dict[int, str]:
    """The codes of refusals, with their names; a code without one has the empty text."""
    with open(CODES, newline="", encoding="utf-8") as file:
        return {int(row["code"], 16): row["name"] for row in csv.DictReader(file)}


class Codes(unittest.TestCase):
    """Each code has a name and a meaning."""

    @unittest.skipUnless(CODES.exists(), "docs/codes.csv is not here")
    def test_codes_are_those_of_the_protocol(self) -> None:
        self.assertEqual({code.value for code in Code}, set(names_by_code()))

    @unittest.skipUnless(CODES.exists(), "docs/codes.csv is not here")
    def test_names_are_those_of_the_protocol(self) -> None:
        for number, name in names_by_code().items():
            words = re.sub(r"(?<=[a-z])(?=[A-Z])", "_", name).upper()
            self.assertTrue(Code(number).name.endswith(words), name)

    def test_a_code_is_its_number(self) -> None:
        self.assertEqual(Code.BUSY, 0x51)
        self.assertIs(Code(0x62), Code.OUTCOME_UNKNOWN)

    def test_a_refusal_says_what_it_means(self) -> None:
        self.assertEqual(str(Refused(Code.EXPIRED)), "refused: a segment has expired")
        self.assertEqual(str(Refused(0x7E)), "refused: code 0x7e")

    def test_what_passes(self) -> None:
        self.assertEqual(PASSING_CODES, {0x01, 0x51, 0x61})
        self.assertTrue(Refused(Code.BUSY).is_passing)
        self.assertFalse(Refused(Code.OUTCOME_UNKNOWN).is_passing)
        self.assertFalse(Refused(0x7E).is_passing)


if __name__ == "__main__":
    unittest.main()
