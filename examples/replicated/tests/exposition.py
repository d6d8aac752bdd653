"""A strict reader of the text format of Prometheus, version 0.0.4, for the tests.

It takes less than the format allows: each family has its HELP, its TYPE and then its samples, all at one place; a
counter ends with `_total`; no sample and no label comes twice; one space stands between the parts of a line.
"""

import re

NAME = r"[a-zA-Z_][a-zA-Z0-9_]*"
SAMPLE = re.compile(rf"({NAME})(?:\{{(.*)\}})? (-?[0-9]+(?:\.[0-9]+)?(?:e[+-]?[0-9]+)?)")
LABEL = re.compile(rf'({NAME})="((?:[^"\\\n]|\\\\|\\"|\\n)*)"(?:,(?=.)|$)')
ESCAPES = {"\\\\": "\\", '\\"': '"', "\\n": "\n"}


class Wrong(Exception):
    """The text is not of this form."""


def expect(truth, line):
    if not truth:
        raise Wrong(line)


def labels_of(text, line):
    """Returns the labels between the braces of a line."""
    labels, at = {}, 0
    while at < len(text):
        found = LABEL.match(text, at)
        expect(found and found[1] not in labels, line)
        labels[found[1]] = re.sub(r'\\[\\"n]', lambda escape: ESCAPES[escape[0]], found[2])
        at = found.end()
    return labels


def read(text):
    """Returns of each name the kind, and the number of each set of labels."""
    expect(text.endswith("\n"), "the last line has no end")
    families, helped, name = {}, None, None
    for line in text[:-1].split("\n"):
        if found := re.fullmatch(rf"# HELP ({NAME}) \S(?:[^\\]|\\\\|\\n)*", line):
            helped = found[1]
            expect(helped not in families, line)
        elif found := re.fullmatch(rf"# TYPE ({NAME}) (gauge|counter)", line):
            name = found[1]
            expect(name == helped and name not in families, line)
            expect((found[2] == "counter") == name.endswith("_total"), line)
            families[name] = found[2], {}
        else:
            found = SAMPLE.fullmatch(line)
            expect(found and found[1] == name and helped == name, line)
            labels = frozenset(labels_of(found[2] or "", line).items())
            expect(labels not in families[name][1], line)
            families[name][1][labels] = float(found[3])
    expect(helped == name, "the last HELP has no TYPE")
    return families


def number(families, name, /, **labels):
    """Returns the number of a sample, or None."""
    return families[name][1].get(frozenset((label, str(text)) for label, text in labels.items()))
