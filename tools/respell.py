#!/usr/bin/env python3
"""Brings the repository's own definitions and lemmas to today's spelling: words in snake case, types in camel case.

usage: tools/respell.py [--list]     at the top of the repository, once, after port.py

It goes by whole words. A word is respelt only where a line of specs/ or proofs/ declares it (a definition, lemma,
record, constructor or field); what the check itself names (goals and their parts) keeps its spelling.
"""
import pathlib
import re
import sys

ROOT = pathlib.Path.cwd()
WORD = r"[^\W\d][\w'\-]*(?:[₀-₉]+[\w'\-]*)?"
DECLARED = re.compile(rf"^(?P<indent> *)(?:(?:abbrev|unfoldable|pub) +)*(?:(?P<type>record|data) +)?(?P<name>{WORD})(?P<rest>.*)$")
GOAL = re.compile(r":\s*(?:goal|given|need)\.")
# Names that the check makes or that a proof file answers to.
MADE = re.compile(r"^(?:invariant-.*|measure-.*|Inv-.*)$")
# Words that would fall together with another that is in scope beside them.
APART = {
    "all-timely": "each_timely",
    "ends-in-zero": "last_gain_is_zero",
    "has-line": "day_has_line",
    "month-from": "first_month_is",
    "month-to": "last_month_is",
    "months-from": "months_tiled",
    "no-rows": "rows_empty",
    "some-part": "is_some_part",
    "some-week": "is_some_week",
    "told_at": "fault_told_at",
    "account-within": "account_is_within",
    "agent-of": "agent_of_account",
    "at-end": "is_at_end",
    "held_after": "held_after_is",
    "is-numbered": "is_numbered_more",
    "last-by": "last_is_zero",
    "letter-first": "letter_is_first",
    "line-from": "line_from_is",
    "number-first": "number_is_first",
    "over-at": "over_at_is",
    "over_by": "over_by_is",
    "prices-hold": "all_prices_hold",
    "range-by": "range_by_is",
    "risk-by": "risk_by_is",
}


def files():
    for kind in ("specs", "proofs"):
        yield from sorted(ROOT.glob(f"crates/*/{kind}/**/*.antt"))


def snake(word):
    word = word.replace("-", "_")
    word = re.sub(r"(?<=[a-z0-9₀-₉'])([A-Z])", r"_\1", word)
    return word.lower()


def camel(word):
    return "".join(part[:1].upper() + part[1:] for part in re.split(r"[-_]", word))


def declared():
    """Each word declared in specs/ and proofs/, with whether it is a type."""
    words = {}
    for path in files():
        for line in path.read_text().split("\n"):
            if line.lstrip().startswith(("--", "use ")) or not line.strip():
                continue
            found = DECLARED.match(line)
            if not found:
                continue
            name, rest = found["name"], found["rest"]
            if found["type"]:
                words.setdefault(name, True)
            elif re.match(r"\s*:(?!=)", rest) and not GOAL.search(rest) and not MADE.match(name):
                words.setdefault(name, name[:1].isupper())
    return words


def main():
    words = declared()
    renamed = {}
    for word, is_type in words.items():
        new = APART[word] if word in APART else camel(word) if is_type and word[:1].isupper() else snake(word)
        if new != word:
            renamed[word] = new
    taken = {}
    for word in list(words) + list(renamed):
        taken.setdefault(renamed.get(word, word), set()).add(word)
    for new, olds in sorted(taken.items()):
        if len(olds) > 1:
            print("falls together:", new, sorted(olds))
    if "--list" in sys.argv:
        for old, new in sorted(renamed.items()):
            print(old, new)
        return
    pattern = re.compile(r"(?<![\w'\-])(?:" + "|".join(sorted(map(re.escape, renamed), key=len, reverse=True)) + r")(?![\w'\-₀-₉])")
    for path in [*files(), *sorted(ROOT.glob("crates/*/src/**/*.rt"))]:
        text = path.read_text()
        if path.suffix == ".rt":
            # strings, characters and comments keep their words
            parts = re.split(r"(\"(?:\\.|[^\"\\])*\"|//[^\n]*)", text)
            new = "".join(part if i % 2 else pattern.sub(lambda found: renamed[found[0]], part) for i, part in enumerate(parts))
        else:
            new = pattern.sub(lambda found: renamed[found[0]], text)
        if new != text:
            path.write_text(new)


main()
