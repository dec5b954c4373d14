#!/usr/bin/env python3
"""Brings the repository's own definitions and lemmas to today's spelling: words in snake case (types and modules keep their capitals).

usage: python3 tools/respell.py        at the top, once, right after the kit's port.py

1. Each name that specs/ or proofs/ define with a small first letter and a capital later gets an underscore and a small letter there
   (batchWords: batch_words). Inside a word getD is get_or, as the library has it.
2. Where a lemma was spelled so already and the two would fall together, the lemma gets _lem behind it. A field keeps its name.
3. The proof of a function f is f_spec.

It goes over .antt and .rt files (strings aside), the edits of must-fail/ and tried/, and what stands between backticks in README.md and docs/.
"""

import glob
import re

DEFINED = re.compile(
    r"^\s*(?:abbrev pub |unfoldable pub |unfoldable |abbrev |pub )?(?:data |record |axiom )?([^\s:(){}=]+)(?: \([^:]*\))* ?:(?!=)"
)
WORD = r"[\w'₀-₉\-]"
# Fields of records, which no definition can fall together with.
FIELDS = {"load_byte", "load_word", "one_width", "branch_taken"}


def snake(name):
    name = name.replace("getD", "get_or")
    return re.sub(r"(?<=[a-z0-9₀-₉'A-Z])[A-Z]", lambda m: "_" + m[0].lower(), name)


def antt():
    return sorted(f for part in ("specs", "proofs") for f in glob.glob(f"crates/*/{part}/**/*.antt", recursive=True))


def table():
    """The new names; and of the lemmas that would fall together with one."""
    names, words = set(), set()
    for f in antt():
        text = re.sub(r"--.*", "", open(f, encoding="utf-8").read())
        names |= {m[1] for line in text.split("\n") if (m := DEFINED.match(line))}
    for f in glob.glob("crates/*/specs/**/*.antt", recursive=True):
        text = re.sub(r"--.*", "", open(f, encoding="utf-8").read())
        words |= set(re.findall(rf"(?<![\w'₀-₉\-.])[A-Za-z_]{WORD}*", text))
    new = {n: snake(n) for n in names if re.match(rf"^[a-zα-ω]{WORD}*[A-Z]", n)}
    if len(set(new.values())) < len(new):
        raise SystemExit("two names fall together")
    lemmas = {n: n + "_lem" for n in new.values() if n in words and n not in FIELDS}
    return new, lemmas


def replace(text, names):
    if not names:
        return text
    some = "|".join(map(re.escape, sorted(names, key=len, reverse=True)))
    return re.sub(rf"(?<!{WORD})(?:{some})(?!{WORD})", lambda m: names[m[0]], text)


def behind_no_dot(text, names):
    some = "|".join(map(re.escape, sorted(names, key=len, reverse=True)))
    return re.sub(rf"(?<![\w'₀-₉\-.])(?:{some})(?!{WORD})", lambda m: names[m[0]], text)


def outside_strings(text, names):
    return "".join(p if k % 2 else replace(p, names) for k, p in enumerate(re.split(r'("(?:[^"\\\n]|\\.)*")', text)))


def change(path, turn):
    with open(path, encoding="utf-8") as f:
        old = f.read()
    new = turn(old)
    if new != old:
        with open(path, "w", encoding="utf-8") as f:
            f.write(new)


def main():
    new, lemmas = table()
    for f in antt():
        change(f, lambda t: replace(behind_no_dot(t, lemmas), new))
        change(f, lambda t: re.sub(rf"(?<!{WORD})[a-z]{WORD}*-spec(?!{WORD})", lambda m: m[0].replace("-", "_"), t))
    for f in glob.glob("crates/*/src/**/*.rt", recursive=True):
        change(f, lambda t: outside_strings(t, new))
    for f in glob.glob("crates/*/must-fail/*.edit") + glob.glob("crates/*/tried/*.edit"):
        change(f, lambda t: re.sub(r"(?m)^(?:old|new):.*$", lambda m: replace(m[0], new), t))
    for f in ["README.md"] + glob.glob("docs/**/*.md", recursive=True):
        change(f, lambda t: re.sub(r"`[^`\n]+`", lambda m: replace(m[0], new), t))
    print(f"respell: {len(new)} names in snake case, {len(lemmas)} lemmas with _lem: {' '.join(sorted(lemmas.values()))}")


main()
