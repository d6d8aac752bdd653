"""Says in a few words which answers differ, and where: for `run`, whose last line has to tell it."""

import itertools

MOST = 120  # characters of an answer


def shortly(content, most=MOST):
    """Returns what an answer is, or the beginning of it."""
    text = content if isinstance(content, str) else repr(content)
    return text if len(text) <= most else f"{text[:most]}.. of {len(text)} characters"


def place_of(one, other, at=""):
    """Returns where two answers differ first, and what each has there."""
    if isinstance(one, bytes) and isinstance(other, bytes) and b"\n" in one + other:
        one, other = one.split(b"\n"), other.split(b"\n")
    if isinstance(one, dict) and isinstance(other, dict):
        for key in sorted(one.keys() | other.keys()):
            if one.get(key) != other.get(key):
                return place_of(one.get(key), other.get(key), f"{at}/{key}")
    if isinstance(one, list) and isinstance(other, list):
        for place, pair in enumerate(itertools.zip_longest(one, other)):
            if pair[0] != pair[1]:
                return place_of(*pair, f"{at}/{place}")
    return f"{at or 'it'} is {shortly(one)}, and not {shortly(other)}"


def unlike(answers, by):
    """Returns who answers other than one of them, and where: `answers` are contents, by name."""
    return "; ".join(
        f"at {name} {place_of(content, answers[by])} as at {by}"
        for name, content in sorted(answers.items())
        if content != answers[by]
    )


def statuses(answers):
    """Returns of each answer, by name, the status and the beginning of its content."""
    listed = sorted(answers.items())
    return "; ".join(f"{name} answers {status} {shortly(content)}" for name, (status, content) in listed)
