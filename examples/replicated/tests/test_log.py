"""The log by itself: who may append, what is read after history was dropped, and how it is cut."""

import itertools
import unittest

from support import MemberCase, MemoryCase

import log
from etcd import unchanged

NEW = {"next": 0}
NEVER = unchanged(b"nothing", 1)  # a condition that is not true


def append(link, number, **changed):
    return link.append(log.batch_key(1, number), b"%d" % number, {"next": number + 1} | changed)


class LogCases:
    def claimed(self):
        link = log.Link(self.new_etcd(), 1)
        link.claim(NEW)
        return link

    def appended(self, many):
        """Returns a link with so many entries, and their revisions."""
        link = self.claimed()
        return link, [append(link, number) for number in range(many)]

    def drop_history(self, revision):
        self.new_etcd().call("kv/compaction", {"revision": str(revision)})

    def page(self, after):
        """Returns the numbers in the entries of a page."""
        return [int(entry.records) for entry in log.page(self.new_etcd(), after)[0]]

    def follow(self, after, many):
        return [int(entry.records) for entry in itertools.islice(log.follow(self.new_etcd(), after), many)]

    # ---- Who may append ----

    def test_a_claim_between_reading_and_writing_of_another(self):
        first, second = log.Link(self.new_etcd(), 1), log.Link(self.new_etcd(), 1)

        def take_over():
            second.claim(NEW)
            append(second, 0)

        first.etcd.before = [take_over]
        self.assertEqual(first.claim(NEW)["next"], 1)
        self.assertRaises(log.Fenced, append, second, 1)
        append(first, 1)
        self.assertEqual(self.page(0), [0, 1])

    def test_answers_that_are_lost(self):
        link = log.Link(self.new_etcd(), 1)
        link.etcd.answers_are_lost = True
        self.assertEqual(link.claim(NEW), NEW)
        first, second = append(link, 0), append(link, 1)
        self.assertLess(first, second)
        self.assertEqual(self.page(0), [0, 1])
        log.cut(link.etcd, link, first)
        self.assertEqual(self.page(first), [1])

    def test_a_second_process_fences_the_first(self):
        first, second = self.claimed(), self.claimed()
        self.assertRaises(log.Fenced, append, first, 0)
        append(second, 0)
        self.assertEqual(self.page(0), [0])

    def test_nothing_comes_after_a_retirement(self):
        link = self.claimed()
        append(link, 0, retired=True)
        head = self.value(link.key)
        self.assertRaises(log.Retired, append, link, 1)
        self.assertRaises(log.Retired, log.Link(self.new_etcd(), 1).claim, NEW)
        self.assertEqual(self.value(link.key), head)
        self.assertEqual(self.page(0), [0])

    def test_a_claim_meets_a_retirement(self):
        first, second = self.claimed(), log.Link(self.new_etcd(), 1)
        second.etcd.before = [lambda: append(first, 0, retired=True)]
        self.assertRaises(log.Retired, second.claim, NEW)

    def test_conditions_of_the_caller(self):
        link = self.claimed()
        head = self.value(link.key)
        self.assertRaises(log.Fenced, log.Link(self.new_etcd(), 1).claim, NEW, [NEVER])
        self.assertRaises(log.Fenced, log.Link(self.new_etcd(), 2).claim, NEW, [NEVER])
        self.assertRaises(log.Fenced, link.append, log.batch_key(1, 0), b"0", {"next": 1}, (), [NEVER])
        self.assertEqual(self.value(link.key), head)
        self.assertIsNone(self.value(log.link_key(2)))
        append(link, 0)
        self.assertEqual(self.page(0), [0])

    # ---- Reading ----

    def test_no_entry_is_skipped_where_history_was_dropped(self):
        _, revisions = self.appended(5)
        self.drop_history(revisions[-1])
        for many, after in enumerate([revisions[0] - 1, *revisions]):
            self.assertEqual(self.page(after), list(range(many, 5)))
            self.assertEqual(self.follow(after, 5 - many), list(range(many, 5)))

    def test_pages_follow_each_other(self):
        many = log.PAGE + 3
        link, revisions = self.appended(many)
        self.drop_history(revisions[-1])
        self.assertEqual(self.page(0), list(range(log.PAGE)))
        following = log.follow(self.new_etcd(), 0)
        self.assertEqual([int(next(following).records) for _ in range(many)], list(range(many)))
        append(link, many)
        self.assertEqual(int(next(following).records), many)

    # ---- Cutting ----

    def test_what_was_cut_is_missed(self):
        link, revisions = self.appended(5)
        log.cut(self.new_etcd(), link, revisions[2])
        for after in 0, revisions[0]:
            self.assertRaises(log.Cut, self.page, after)
            self.assertRaises(log.Cut, self.follow, after, 1)
        self.assertRaises(log.Cut, self.page, revisions[1])
        self.assertEqual(self.follow(revisions[1], 3), [2, 3, 4])  # etcd still has the last change that was cut
        self.assertEqual(self.follow(revisions[2], 2), [3, 4])
        self.assertEqual(self.page(revisions[2]), [3, 4])
        self.assertIsNone(self.value(log.batch_key(1, 2)))

    def test_cut_never_falls(self):
        link, revisions = self.appended(5)
        log.cut(self.new_etcd(), link, revisions[3])
        log.cut(self.new_etcd(), link, revisions[1])
        self.assertEqual(self.value(log.CUT), b"%d" % revisions[3])
        self.assertRaises(log.Cut, self.page, revisions[1])
        self.assertRaises(log.Cut, self.follow, revisions[1], 1)
        log.cut(self.new_etcd(), link, revisions[4])
        self.assertEqual(self.value(log.CUT), b"%d" % revisions[4])

    def test_cut_is_raised_between_reading_and_writing(self):
        link, revisions = self.appended(5)
        etcd = self.new_etcd()
        etcd.before = [lambda: self.put(log.CUT, b"%d" % revisions[3])]
        log.cut(etcd, link, revisions[1])
        self.assertEqual(self.value(log.CUT), b"%d" % revisions[3])
        self.assertRaises(log.Cut, self.page, revisions[2])

    def test_a_fenced_process_cuts_nothing(self):
        link, revisions = self.appended(3)
        etcd = self.new_etcd()
        etcd.before = [self.claimed]
        self.assertRaises(log.Fenced, log.cut, etcd, link, revisions[1])
        self.assertIsNone(self.value(log.CUT))
        self.assertEqual(self.page(0), [0, 1, 2])


class InMemory(LogCases, MemoryCase):
    pass


class OfAMember(LogCases, MemberCase):
    pass


class ByTheGateway(LogCases, MemberCase):
    by_rpc = False


if __name__ == "__main__":
    unittest.main()
