#!/usr/bin/env python3
"""Brings the names of goals and of known facts in a crate's proof folders to those that the check makes today.

usage: python3 tools/goal_names.py CRATE     at the top of the repository, with rt on the path

`rt check --generated` lists the names. A word of a proof file that is none of them, and is one of them but for '-' in place of '_', becomes it.
Names that the crate's own files define are left alone.
"""
import glob
import json
import os
import re
import subprocess
import sys
import tempfile

WORD = re.compile(r"(?<![\w'+-])[A-Za-z_][\w'+-]*")


def strings(value, out):
    if isinstance(value, str):
        out.update(re.findall(r"[\w'+-]+", value))
    elif isinstance(value, list):
        for v in value:
            strings(v, out)
    elif isinstance(value, dict):
        for k, v in value.items():
            strings(k, out)
            strings(v, out)
    return out


def plain(word):
    return re.sub(r"[-_]+", "-", word)


def main(crate):
    folder = os.path.join("crates", crate)
    with tempfile.TemporaryDirectory() as made:
        subprocess.run(["rt", "check", "--generated", made, "--old-names"], cwd=folder, stdout=subprocess.DEVNULL, stderr=subprocess.DEVNULL)
        with open(os.path.join(made, "names.json")) as f:
            names = json.load(f)
    own = set()
    for path in glob.glob("crates/*/specs/**/*.antt", recursive=True) + glob.glob("crates/*/proofs/*.antt"):
        with open(path, encoding="utf-8") as f:
            own.update(re.findall(r"^\s*(?:(?:pub|abbrev|unfoldable|record|data)\s+)*([^\s:]+) :", f.read(), re.M))
    for key, value in names.items():
        parts = key.split(".")
        where = os.path.join(folder, "proofs", *[p.replace("crate::", "") for p in parts[1:-1]])
        known = strings(value, set())
        by_plain = {}
        for n in known:
            by_plain.setdefault(plain(n), set()).add(n)
        for path in glob.glob(os.path.join(glob.escape(where), "*.antt")):
            with open(path, encoding="utf-8") as f:
                text = f.read()

            def turn(m):
                w = m[0]
                if w in known or "-" not in w or (w in own and text[m.start() - 1] not in "."):
                    return w
                found = by_plain.get(plain(w), set())
                return next(iter(found)) if len(found) == 1 else w

            new = WORD.sub(turn, text)
            if new != text:
                with open(path, "w", encoding="utf-8") as f:
                    f.write(new)
                print(path)
    return 0


if __name__ == "__main__":
    sys.exit(main(sys.argv[1]))
