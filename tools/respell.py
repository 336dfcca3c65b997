#!/usr/bin/env python3
"""Spells the repository's own definitions and lemmas as the installed Rattle spells names, in snake case.

usage: python3 tools/respell.py [--list]        at the top of the repository, once, after the kit's own script

Renamed are the names that .antt files of crates/ declare: crcFrom becomes crc_from, run-first becomes run_first. Types, facts, modules
and the table's own symbols (L1, P, Q) keep their spelling.
Functions, fields and constants of src/, exported names, strings, inputs and outputs are not touched. Two names that would fall together stop it.
"""
import collections
import glob
import re
import sys

NAME = r"[^\s(){}.;,@\"«»|`:=]+"
# Lemmas whose plain spelling is that of the function that they are about, or of another definition: they end in _lem.
LEMMAS = {
    "bad-text": "bad_text_lem",
    "code-of": "code_of_lem",
    "event-adds": "event_adds_lem",
    "heard-as": "heard_as_lem",
    "in_bytes": "in_bytes_lem",
    "in_order": "in_order_lem",
    "power_at": "power_at_lem",
    "ratios-ok": "ratios_ok_lem",
    "read_back": "read_back_lem",
    "text-length": "text_length_lem",
    "to-second": "to_second_lem",
    "unsigned-zero": "unsigned_zero_lem",
    "value-of": "value_of_lem",
}
# A definition, and a field elsewhere that is spelled alike and never meets it.
APART = {"valueRead"}


def files(*patterns):
    for pattern in patterns:
        for path in sorted(glob.glob(pattern, recursive=True)):
            if "/out/" not in path:
                yield path


def declared():
    """The names that .antt files declare, with what kind each is."""
    kinds = collections.defaultdict(set)
    shapes = (
        ("type", re.compile(r"^(?:abbrev |unfoldable |pub )*(?:data|record) (?:pub )?(%s)" % NAME)),
        ("field", re.compile(r"^ +(?:pub )?(%s) :" % NAME)),
        ("def", re.compile(r"^ *(?:(?:abbrev|unfoldable|ruleset) (?:pub )?|pub )?(?:pub )?(%s)(?: \{[^{}]*\}| \([^()]*\))* [:=]" % NAME)),
    )
    for path in files("crates/*/specs/**/*.antt", "crates/*/proofs/**/*.antt"):
        for line in open(path, encoding="utf-8"):
            for kind, shape in shapes:
                m = shape.match(line)
                if m:
                    kinds[m[1]].add(kind)
                    break
    return kinds


def snake(word):
    return re.sub(r"(?<=[a-z0-9])[A-Z](?![A-Z])", lambda m: "_" + m[0].lower(), word)


def table():
    kinds = declared()
    lower = [n for n in kinds if re.match(r"[a-z]", n)]
    turned = dict(LEMMAS)
    for name in lower:
        if name in LEMMAS:
            continue
        new = "_".join(snake(w) if re.match(r"[a-z]", w) else w.lower() for w in name.split("-"))
        if new != name:
            turned[name] = new
    back = collections.Counter(turned.values())
    met = [o for o, new in turned.items() if back[new] > 1 or new in kinds and new not in turned and o not in APART]
    if met:
        sys.exit("names fall together: " + ", ".join(sorted(met)))
    return kinds, turned


def turn(text, kinds, turned, dashes):
    def one(m):
        name = m[0]
        new = turned.get(name)
        if new is None or "-" in name and not dashes:
            return name
        before, after = text[: m.start()], text[m.end() : m.end() + 1]
        if name in LEMMAS and (not dashes or after == "." or "-" not in name and before.endswith(".")):
            return name
        if "-" in name and before.endswith(".") and "field" not in kinds[name]:
            owner = re.search(r"([^\s(){}.;,]+)\.$", before)
            if not (owner and owner[1][:1].isupper()):
                return name
        return new

    return re.sub(NAME, one, text)


def main():
    kinds, turned = table()
    if "--list" in sys.argv:
        for old in sorted(turned):
            print(old, turned[old], ",".join(sorted(kinds[old])))
        return
    for path in files("crates/*/specs/**/*.antt", "crates/*/proofs/**/*.antt", "crates/*/src/**/*.rt", "crates/*/must-fail/*.edit", "docs/**/*.md", "README.md"):
        with open(path, encoding="utf-8") as f:
            text = f.read()
        if path.endswith(".md"):
            new = re.sub(r"`[^`\n]+`", lambda m: turn(m[0], kinds, turned, "/" not in m[0] and "-" in m[0]), text)
        elif path.endswith(".antt"):
            lines = []
            for line in text.split("\n"):
                code, dash, comment = (line, "", "") if " -- " not in line and not line.startswith("-- ") else re.match(r"(.*?)((?:^|(?<= ))-- )(.*)", line).groups()
                lines.append(turn(code, kinds, turned, True) + dash + turn(comment, kinds, turned, False))
            new = "\n".join(lines)
        else:
            new = turn(text, kinds, turned, False)
        if new != text:
            with open(path, "w", encoding="utf-8") as f:
                f.write(new)


main()
