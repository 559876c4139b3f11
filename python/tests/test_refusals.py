"""One case of each number: the package gives it, with the recorded words and what it carries. bindings/run compares C and Rust with the same record."""
import unittest

import support
from ducatmuffin import numbers

import refusals


def lines(path):
    with open(path, encoding="utf-8") as file:
        return file.read().splitlines()


class Refusals(unittest.TestCase):
    def test_each_number_has_its_case(self):
        self.assertEqual([case[0] for case in refusals.CASES], list(numbers.NUMBERS))

    def test_the_requests_are_those_that_c_and_rust_read(self):
        self.assertEqual(lines(refusals.REQUESTS), [refusals.request(case) for case in refusals.CASES])

    def test_the_record_has_a_line_for_each(self):
        self.assertEqual(len(lines(refusals.RECORD)), len(refusals.CASES))


def is_recorded(test, case, recorded):
    test.assertEqual(refusals.line(case), recorded)


@support.each(is_recorded, list(zip(refusals.CASES, lines(refusals.RECORD))), "number")
class Recorded(unittest.TestCase):
    """What is printed for each case is what is recorded."""
