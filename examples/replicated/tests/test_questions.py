"""What `run` asks of replicas: what differs is told in one line, by the names of who answers."""

import random
import unittest
from unittest import mock

import support  # noqa: F401  finds the example

from programs import Difference
from questions import TIMES, Questions
from range_questions import RangeQuestions
from unlike import MOST, place_of, shortly

ELSEWHERE = 404, {"refused": "there is no such range here"}
LATER = 503, {"refused": "no memory"}


class Answers(unittest.TestCase):
    def setUp(self):
        self.enterContext(mock.patch("hlcstore.check"))
        self.enterContext(mock.patch("time.sleep"))

    def questions(self, answers, kind=Questions):
        """Returns questions that are answered so: each name has its answers, of which the last one stays."""
        asked = kind(lambda: {}, random.Random(1), None)
        left = {name: list(listed) for name, listed in answers.items()}
        asked.ask_all = lambda path, **words: {
            name: listed.pop(0) if len(listed) > 1 else listed[0] for name, listed in left.items()
        }
        return asked

    def refuse(self, text, call, *words, **more):
        with self.assertRaises(Difference) as refused:
            call(*words, **more)
        self.assertIn(text, str(refused.exception))
        self.assertNotIn("\n", str(refused.exception))
        self.assertLess(len(str(refused.exception)), 5 * MOST)

    def test_an_answer_that_differs(self):
        good = {"stamp": 5, "pairs": [["6b", "31"]] * 500}
        bad = good | {"pairs": [*good["pairs"][:9], ["6b", "32"], *good["pairs"][10:]]}
        for kind in Questions, RangeQuestions:
            asked = self.questions({"model": [(200, good)], "r1": [(200, good)], "r2": [(200, bad)]}, kind)
            said = "at r2 /pairs/9/1 is 32, and not 31 as at model"
            self.refuse(said, asked.same, "/range", stamp=5, key=[b"key"] * 500)
        asked = self.questions({"model": [LATER], "r1": [(200, good)]})
        self.refuse("model answers 503", asked.same, "/range", stamp=5)

    def test_certificates_beside_a_reader(self):
        """They differ while it reads. A replica that refuses is left out."""
        texts = (200, b"point 5\nrow"), (200, b"point 4\npoint 5\nrow")
        answers = {"r1": [texts[0]], "r2": [texts[1]] * (TIMES - 1) + [texts[0]], "r3": [LATER]}
        self.questions(answers).compare_certificates_of(stamp=5)
        self.refuse(
            "at r2 /0 is b'point 4', and not b'point 5' as at r1",
            self.questions(answers | {"r2": [texts[1]]}).compare_certificates_of, stamp=5,
        )  # fmt: skip

    def test_certificates_at_rest(self):
        """They are asked once, and each replica that has the range must give one."""
        text, other = (200, b"point 5\nrow"), (200, b"point 5\nother")
        good = {"model": [ELSEWHERE], "r1": [text], "r2": [text], "r3": [ELSEWHERE]}
        asked = self.questions(good)
        asked.compare_certificates_at_rest(stamp=5, range=3)
        self.assertEqual(asked.certificates, 2)
        for bad, said in (
            ({"r2": [other, text]}, "at r2 /1 is b'other', and not b'row' as at r1"),
            ({"r2": [LATER, text]}, "r2 answers 503"),
            ({"r1": [ELSEWHERE], "r2": [ELSEWHERE]}, "is missing"),
        ):
            self.refuse(said, self.questions(good | bad).compare_certificates_at_rest, stamp=5, range=3)

    def test_a_difference_in_few_words(self):
        self.assertEqual(place_of({"a": [1, 2]}, {"a": [1]}), "/a/1 is 2, and not None")
        self.assertEqual(place_of(5, [5]), "it is 5, and not [5]")
        self.assertEqual(shortly("x" * 500), "x" * MOST + ".. of 500 characters")


if __name__ == "__main__":
    unittest.main()
