"""Asks about several ranges at one cut: the replicas that have a range, and the model, answer alike."""

from questions import ELSEWHERE, KEYS, KEYS_READ, Questions


class RangeQuestions(Questions):
    def readable(self):
        """Returns the least stamp that all can read, and the greatest: the cut."""
        states = self.states()
        model = states.pop("model")
        if not states or not model["ranges"]:
            return None
        live = {each["range"] for each in model["ranges"]}
        parts = [each for state in states.values() for each in state["ranges"] if each["range"] in live]
        low = max([each["horizon"] for each in parts] + [model["threshold"]])
        high = min([each["floor"] for each in parts] + [model["floor"]])
        missing = live - {each["range"] for each in parts}
        return (low, high) if low <= high and high and not missing else None

    def compare_at(self, stamp):
        """Compares each range at the stamp, and a scan over all of them at a replica that has all its keys."""
        answers = []
        for each in self.states()["model"]["ranges"]:
            ends = {"from": bytes.fromhex(each["from"]), "to": bytes.fromhex(each["to"])}
            answers.append(self.same("/digest", stamp=stamp, **ends))
            keys = [b"key%07d" % int(KEYS * self.chance.random() ** 4) for _ in range(KEYS_READ)]
            keys = [key for key in keys if ends["from"] <= key and (not ends["to"] or key < ends["to"])]
            if keys:
                self.same("/read", stamp=stamp, key=keys)
        start = b"key%07d" % int(KEYS * self.chance.random() ** 4)
        self.same("/range", stamp=stamp, **{"from": start, "to": start[:-1] + b"\xff"})
        whole = self.same("/digest", stamp=stamp)
        self.whole += whole is not None
        if all(answers):
            self.stamps += 1
            if whole:
                self.answers[stamp] = whole

    whole = 0  # stamps at which a replica with all ranges was asked

    def same(self, path, **words):
        answers = self.ask_all(path, **words)
        here = {name: answer for name, answer in answers.items() if answer[0] != ELSEWHERE}
        return self.same_of(here, path, words)

    def compare_certificates(self, stamp):
        """Lets the replicas of each range vacuum to a stamp, compares the certificates, and checks one of each."""
        states = self.states()
        live = states.pop("model")["ranges"]
        floors = [each["floor"] for state in states.values() for each in state["ranges"] if each["live"]]
        if not stamp or not floors or min(floors) < stamp:
            return
        for each in live:
            self.compare_certificates_of(stamp=stamp, range=each["range"])
