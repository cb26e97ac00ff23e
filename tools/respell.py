#!/usr/bin/env python3
"""Spells the repository's own definitions and lemmas as today's Rattle does: words in snake case, types and facts in camel case.

usage: python3 tools/respell.py [--list]     at the top of the repository, once, after the kit's port.py

It goes by text. A name is one that a file of specs/ or proofs/ of some crate gives a signature. camelCase humps and dashes become '_';
a dash stays where it joins a fact, which keeps its capital, or a definition to the operation that the lemma is about (length-append).
Functions of src/, exported names, strings, inputs and outputs are not touched. Names that fall together stop it, with nothing written.
With --list it writes nothing and prints the names, old and new.
"""
import glob
import os
import re
import sys

STOPS = r"\s(){}\[\];,:.λ«»\"`'?!&|"
WORD = re.compile(r"(?<![^" + STOPS + r"])[^" + STOPS + r"]+'*(?![^" + STOPS + r"])")
SIGNATURE = re.compile(r"^\s*((?:(?:pub|abbrev|unfoldable|record|data|ruleset)\s+)*)([^" + STOPS + r"]+'*)\s*((?:\{[^}]*\}\s*|\([^)]*\)\s*)*):\s([^\n]*)", re.M)
OPERATIONS = {"append", "set", "push", "repriced"}
# what the kit's script had already put into snake case, in specs/ and proofs/ only: docs and edits follow here
BEFORE = """aboveOf add-parts after-one after-two ahead-within all-alike all-both all-first all-small all-there andThen at-cut at-front at-least at-test
atMost below-fails below-next byteOf callBy cond-same countOf cut-all cut-at div-is each-below entry-found entryAt entryOf filled-ok first-on folded-keeps
front-long front-of held-all held-none in-parts inBlock isNone itemAt itemOf kept-more kept-on keyOf kindOf lineKey lineOf linesOf many-more may-add no-minus
noItem not-none number-is number-more numberOf numbers-of one-more oneWord orElse over-none part-none partOf parts-whole plain-back raised-at readOf readOn
rest-sum rowLine rowOf saidOf same-ahead same-none same-sum second-alike second-is size-back sizeOf slot-same slotBy slotOf slots-apart small-all split-off
stands-at start-none startOf sum-is sum-more sumAt sumOf tablesOf times-above top-small total-cleared totalOf turned-round upTo whole-split wordAt wordOf
wordsOf""".split()


# names that would fall together with another: a lemma that would have a function's name gets '_lem'
APART = {
    "accounts-of": "accounts_in",
    "costs-of": "costs_in",
    "same-series": "same_series_lem",
    "same-slot": "same_slot_lem",
    "some-hours": "some_hours_lem",
    "read-price": "read_price_lem",
    "numbers-read-back": "numbers_read_back_lem",
    "words-are-all": "words_are_all_lem",
    "words-stand": "words_stand_lem",
    "met≢NotMet": "met_is_not_NotMet",
}


def spell(name, defined):
    """The new spelling of a name."""
    if name in APART:
        return APART[name]
    if name[:1].isupper():
        return "".join(p[:1].upper() + p[1:] for p in name.split("-"))
    humps = re.sub(r"([a-z0-9])([A-Z])", lambda m: m[1] + "_" + m[2].lower(), name) if name[:1].islower() and "-" not in name else name
    parts = re.split(r"-(?=.)", humps)
    parts = [re.sub(r"([a-z0-9])([A-Z])", lambda m: m[1] + "_" + m[2].lower(), p) if p[:1].islower() else p for p in parts]
    out = parts[0]
    for i, p in enumerate(parts[1:], 1):
        left = "-".join(name.split("-")[:i])
        fact = p[:1].isupper()
        joins = p in OPERATIONS and i == len(parts) - 1 and left in defined
        out += ("-" if fact or joins else "_") + p
    return out


def bare(text):
    return re.sub(r"--[^\n]*", "", text)


def proof_files():
    return sorted(glob.glob("crates/*/specs/**/*.antt", recursive=True) + glob.glob("crates/*/proofs/**/*.antt", recursive=True))


def fields_of(text):
    """The fields of the records that a proof file declares."""
    fields, inside = set(), False
    for line in text.split("\n"):
        if re.match(r"\s*(pub )?record ", line):
            inside = True
        elif inside and (m := re.match(r"\s+(?:pub )?([^\s:]+) :", line)):
            fields.add(m[1])
        elif line.strip() and not line.startswith(" "):
            inside = False
    return fields


def table():
    defined, words, fields = set(), set(), set()
    for path in proof_files():
        with open(path, encoding="utf-8") as f:
            text = bare(f.read())
        for m in SIGNATURE.finditer(text):
            if not m[4].startswith("goal."):
                defined.add(m[2])
        fields |= fields_of(text)
        # behind a dot stands a field, or a function's folder
        words.update(m[0] for m in WORD.finditer(text) if text[m.start() - 1 : m.start()] != ".")
    source = ""
    for path in sorted(glob.glob("crates/*/src/**/*.rt", recursive=True)):
        with open(path, encoding="utf-8") as f:
            source += re.sub(r"//[^\n]*", "", f.read())
    # a definition may have the name of the function that it says the result of, but not that of a parameter, a field or a local
    words.update(re.findall(r"\b(\w+)\s*:(?!:)", source), re.findall(r"\blet (?:mut )?(\w+)", source), re.findall(r"\bconst (\w+)", source))
    names = {n: spell(n, defined) for n in defined}
    names = {n: s for n, s in names.items() if n != s}
    # a name that is taken in a crate that the other does not use (numbersOf), or by the field of which it speaks (seventyFive)
    together = sorted((s, n) for n, s in names.items() if (s in words and n not in ("numbersOf", "seventyFive")) or list(names.values()).count(s) > 1)
    return names, together, fields


def respell(text, names, inside, fields=frozenset()):
    """The names of a text that is all antt (or, if not inside, of Rust text, comments or pages)."""
    goals = {m[2] for m in SIGNATURE.finditer(text) if m[4].startswith("goal.")} if inside else set()

    def turn(m):
        word = m[0]
        if word not in names or word in goals:
            return word
        dotted = text[m.start() - 1 : m.start()] == "."
        if dotted and "-" in word and word not in fields and not re.search(r"(^|[\s({])Rattle(\.[\w+]+)+\.$", text[: m.start()][-200:]):
            return word
        return names[word]

    return WORD.sub(turn, text)


def outside_strings(text, names):
    """Rust text: strings and characters stay, and in comments only words with a hump are turned."""
    humped = {n: s for n, s in names.items() if "-" not in n}
    out, at = [], 0
    for m in re.finditer(r'//[^\n]*|b?"(?:\\.|[^"\\])*"', text):
        out.append(respell(text[at : m.start()], names, False))
        out.append(respell(m[0], humped, False) if m[0].startswith("//") else m[0])
        at = m.end()
    out.append(respell(text[at:], names, False))
    return "".join(out)


def page(text, names):
    """A page: only what stands in code marks."""
    return re.sub(r"`[^`\n]+`", lambda m: "`" + respell(m[0][1:-1], names, False) + "`", text)


def write(path, turn):
    with open(path, encoding="utf-8") as f:
        old = f.read()
    new = turn(old)
    if new != old:
        with open(path, "w", encoding="utf-8") as f:
            f.write(new)


def edit(text, everywhere):
    """A must-fail edit: what it takes from a source and puts there."""
    def line(m):
        turned = respell(m[2], everywhere, True) if ".antt" in text else outside_strings(m[2], everywhere)
        return m[1] + turned
    return re.sub(r"^(old: |new: )([^\n]*)", line, text, flags=re.M)


def main():
    names, together, fields = table()
    if "--list" in sys.argv:
        for n, s in sorted(names.items()):
            print(n, s)
    if together:
        print("fall together:", ", ".join(f"{n} -> {s}" for s, n in together), file=sys.stderr)
        return 1
    if "--list" in sys.argv:
        return 0
    everywhere = names | {n: spell(n, set()) for n in BEFORE}
    for path in proof_files():
        write(path, lambda t: respell(t, names, True, fields))
    for path in glob.glob("crates/*/src/**/*.rt", recursive=True):
        write(path, lambda t: outside_strings(t, names))
    for path in glob.glob("crates/*/must-fail/*.edit"):
        write(path, lambda t: edit(t, everywhere))
    for path in glob.glob("docs/*.md") + ["README.md"]:
        write(path, lambda t: page(t, everywhere))
    return 0


if __name__ == "__main__":
    sys.exit(main())
