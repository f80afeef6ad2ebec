# SPDX-License-Identifier: MIT OR Apache-2.0
"""Tests of the lines that stand behind a rejection."""
import unittest

from checks.outcomes import telling

EVENT = "event: 5 cpu 0 user read 0x5123 -> 0x9123\n"


class AllowedLines(unittest.TestCase):
    def test_each_outcome_in_a_line(self):
        text = (EVENT + "0x9123 by 4 4 4 4\n  level 4: moment 4 pcid 0x0 [0x1000] = 0x2007 table, written by event 0\n"
                "  cached since 4, dropped by nothing\nfault 0x4 by 5 5 5 5\noutcomes: 2\n")
        self.assertEqual(telling.allowed_lines(text),
                         "allowed: 0x9123 by 4 4 4 4\nallowed: fault 0x4 by 5 5 5 5\n")

    def test_none(self):
        self.assertEqual(telling.allowed_lines(EVENT + "outcomes: 0\n"), "allowed: none\n")

    def test_sixteen_and_how_many_more(self):
        for count, more in ((16, []), (17, ["allowed: 1 more"]), (30, ["allowed: 14 more"])):
            found = [f"{0x1000 * it:#x} by {it}" for it in range(1, count + 1)]
            text = "\n".join([EVENT.strip(), *found, f"outcomes: {count}", ""])
            self.assertEqual(telling.allowed_lines(text).splitlines(),
                             [f"allowed: {it}" for it in found[:16]] + more)

    def test_no_lines_of_an_assist(self):
        self.assertEqual(telling.allowed_lines("event: 5 cpu 0 user read 0x5123 assist [0x4028] accessed\n"
                                               "may come by 5 5 5 5\n"), "")


if __name__ == "__main__":
    unittest.main()
