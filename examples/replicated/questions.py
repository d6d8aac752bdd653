"""Asks replicas and the model the same questions, and compares the answers: for `run`."""

import concurrent.futures
import http.client
import subprocess
import time

import hlcstore

from programs import Difference, ask
from unlike import shortly, statuses, unlike

KEYS = 20_000
KEYS_READ = 20
TIMES, PAUSE = 10, 0.1  # how often certificates that differ are asked, and the seconds from one time to the next
ELSEWHERE = 404  # the range is at other replicas; the model has no certificates


class Questions:
    """`addresses()` returns the addresses of who answers now, by name. One of them is `model`."""

    def __init__(self, addresses, chance, checker):
        self.addresses, self.chance, self.checker = addresses, chance, checker
        self.answers = {}  # of each stamp that was asked: the digest
        self.stamps = self.again = self.refused = self.certificates = 0
        self.threads = concurrent.futures.ThreadPoolExecutor(8)

    def ask_all(self, path, **words):
        """Returns the status and the content of each answer, by name."""
        asked = {name: self.threads.submit(ask, address, path, **words) for name, address in self.addresses().items()}
        answers = {}
        for name, answer in asked.items():
            try:
                answers[name] = answer.result()
            except (OSError, http.client.HTTPException) as failure:
                raise Difference(f"{name} does not answer {path} {words}: {failure!r}") from None
        return answers

    def states(self):
        return {name: content for name, (_, content) in self.ask_all("/state").items()}

    def same(self, path, **words):
        """Returns the answer of all, or None if no replica answered.

        A replica may refuse: its vacuum may have passed the stamp, or it may have begun again at an older checkpoint.
        """
        return self.same_of(self.ask_all(path, **words), path, words)

    def same_of(self, answers, path, words):
        good = {name: content for name, (status, content) in answers.items() if status == 200}
        self.refused += len(answers) - len(good)
        if "model" not in good:
            raise Difference(f"{path} {shortly(words)}: {statuses(answers)}")
        if said := unlike(good, "model"):
            raise Difference(f"{path} {shortly(words)}: {said}")
        return good["model"] if len(good) > 1 else None

    def readable(self):
        """Returns the least and the greatest stamp that all can read, or None."""
        states = self.states().values()
        low = max(max(state["threshold"], state.get("horizon", 0)) for state in states)
        high = min(state["floor"] for state in states)
        return (low, high) if len(states) > 1 and low <= high and high else None

    def compare(self):
        """Compares a digest, some keys and a range at a stamp; and a digest of before once more."""
        ends = self.readable()
        if not ends:
            return
        self.compare_at(self.chance.choice([ends[1], self.chance.randint(*ends)]))
        before = [stamp for stamp in self.answers if ends[0] <= stamp <= ends[1]]
        if before:
            stamp = self.chance.choice(before)
            answer = self.same("/digest", stamp=stamp)
            if answer and answer != self.answers[stamp]:
                raise Difference(f"at {stamp} the digest was {self.answers[stamp]}, and is now {answer}")
            self.again += answer is not None

    def compare_at(self, stamp):
        answer = self.same("/digest", stamp=stamp)
        keys = [b"key%07d" % self.chance.randrange(KEYS) for _ in range(KEYS_READ)]
        self.same("/read", stamp=stamp, key=keys)
        self.same("/range", stamp=stamp, **{"from": min(keys), "to": min(keys) + b"9"})
        if answer:
            self.answers[stamp] = answer
            self.stamps += 1

    def compare_certificates(self, stamp):
        """Lets all replicas vacuum to a stamp, if their floors allow it; compares the certificates, and checks one."""
        states = self.states()
        if not stamp or any(state["floor"] < stamp for state in states.values()):
            return
        self.compare_certificates_of(stamp=stamp)

    def compare_certificates_of(self, **words):
        """A replica in which another client reads just now keeps rows for it: then the certificates are asked again."""
        for _ in range(TIMES):
            answers = self.ask_all("/certificate", **words)
            texts = {name: text for name, (status, text) in answers.items() if status == 200}
            self.check_all(texts)
            if len(set(texts.values())) <= 1:
                return
            time.sleep(PAUSE)  # whoever reads, ends
        raise Difference(f"the certificates differ, asked {TIMES} times: {words}: {unlike(texts, min(texts))}")

    def compare_certificates_at_rest(self, **words):
        """Nobody reads, and no log goes on: each replica that has a range gives the same certificate, at once."""
        answers = self.ask_all("/certificate", **words)
        here = {name: answer for name, answer in answers.items() if answer[0] != ELSEWHERE}
        if not here or any(status != 200 for status, _ in here.values()):
            raise Difference(f"a certificate at rest is missing: {words}: {statuses(answers)}")
        texts = {name: text for name, (_, text) in here.items()}
        self.check_all(texts)
        if said := unlike(texts, min(texts)):
            raise Difference(f"the certificates at rest differ: {words}: {said}")

    def check_all(self, texts):
        self.certificates += len(texts)
        for text in set(texts.values()):
            self.check(text, [name for name in sorted(texts) if texts[name] == text])

    def check(self, certificate, names):
        """Checks a certificate that replicas of these names gave."""
        if not self.checker:
            hlcstore.check(certificate)
            return
        checked = subprocess.run([self.checker, "check"], input=certificate, capture_output=True)
        if checked.returncode != 0:
            said = f"status {checked.returncode}, {shortly(checked.stdout + checked.stderr)}"
            raise Difference(f"a certificate of {', '.join(names)} was refused: {said}")
