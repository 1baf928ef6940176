#!/usr/bin/env python3
"""Spells this repository's own definitions and lemmas as today's Rattle does: words in snake case.

usage: python3 tools/port_names.py          at the top of the checkout, once, right after port.py
       python3 tools/port_names.py --check  writes nothing, and prints which names would fall together

What turns: each name that a line of specs/ or proofs/ declares and that is in camel case or has a dash, wherever an .antt file,
a ghost part of an .rt file, rules.txt, broken.txt or a code span of a page has it. What stays: names that begin with a capital, and
the names of Rattle's own goals. A lemma whose new name a definition has gets `_lem` (FALLS).
It also moves crates/base/specs/Contracts.antt, whose name Rattle takes for a module of its own, to ExactContracts.antt.
"""
import os
import re
import sys

NAME = r"[^\s(){}.;,@\"«»]+"
DECLARED = re.compile(r"(?m)^ *(?:(?:pub|abbrev|unfoldable|record|data) )*(" + NAME + r")(?: \{[^{}\n]*\})* : (?!tie\.|fn\.)")
QUIET = re.compile(r'"(?:[^"\\\n]|\\.)*"|(?<![^\s(){}.;,@"«»])--[^\n]*|\{-.*?-\}', re.S)
SPAN = re.compile(r"`[^`\n]*`")
WORD = re.compile(NAME)

# Names that would fall together with another one: (name, part of the paths where it is turned so, or '' for all) -> what it becomes.
FALLS = {
    ("at_top", "votes/"): "at_top_lem",
    ("bad-setup", ""): "bad_setup_lem",
    ("event-line", ""): "event_line_lem",
    ("has-row", "votes/"): "has_row_lem",
    ("last-event", ""): "last_event_lem",
    ("last-is", "base/"): "last_is_lem",
    ("lasts_are", "base/"): "lasts_are_lem",
    ("longest-read", ""): "longest_read_lem",
    ("returned-is", "base/"): "returned_is_lem",
    ("rows_behind", "transcript/"): "rows_behind_lem",
    ("ones-in", "seats/"): "ones_in_lem",
    ("row-in", "transcript/"): "row_in_lem",
    ("some-seat", ""): "some_seat_lem",
    ("too_long", "transcript/"): "too_long_lem",
    ("two_at", "votes/"): "two_at_lem",
}


def snake(name):
    return re.sub(r"(?<=[a-z0-9])[A-Z]", lambda m: "_" + m[0].lower(), name).replace("-", "_")


def files(*endings):
    for folder, dirs, names in os.walk("crates"):
        dirs[:] = sorted(d for d in dirs if d != "out")
        for name in sorted(names):
            if name.endswith(endings):
                yield os.path.join(folder, name)


def read(path):
    with open(path, encoding="utf-8") as f:
        return f.read()


def declared():
    names = set()
    for path in files(".antt"):
        names.update(DECLARED.findall(QUIET.sub(" ", read(path))))
    return {n for n in names if n[0].islower() and snake(n) != n}


def table_of(path, turned):
    table = {n: snake(n) for n in turned}
    for (name, part), new in sorted(FALLS.items()):
        if part in path:
            table[name] = new
    return table


def words(text, table):
    return WORD.sub(lambda m: table.get(m[0], m[0]), text)


def code(text, table):
    """The text of an .antt or .rt file: its code, and the code spans of its comments."""
    out, at = [], 0
    for m in re.finditer(r'"(?:[^"\\\n]|\\.)*"|(?<![^\s(){}.;,@"«»])--[^\n]*|//[^\n]*', text):
        out.append(words(text[at : m.start()], table))
        quiet = m[0]
        out.append(quiet if quiet.startswith('"') else SPAN.sub(lambda s: words(s[0], table), quiet))
        at = m.end()
    out.append(words(text[at:], table))
    return "".join(out)


def page(text, table):
    return SPAN.sub(lambda s: words(s[0], table), text)


def rules(text, table):
    """rules.txt and broken.txt: what is replaced, and by whom it is refused. Labels and reasons stay."""
    lines = []
    for line in text.splitlines(keepends=True):
        head = line.split(" ")[0]
        lines.append(words(line, table) if head in ("old:", "new:", "refused:", "falls:", "shown:") else line)
    return "".join(lines)


def main():
    turned = declared()
    moved = "crates/base/specs/Contracts.antt"
    check = "--check" in sys.argv
    if check:
        for path in files(".antt"):
            table = table_of(path, turned)
            found = {}
            for w in set(WORD.findall(QUIET.sub(" ", read(path)))):
                found.setdefault(table.get(w, w), set()).add(w)
            for new, olds in sorted(found.items()):
                if len(olds) > 1:
                    print(f"{path}: {sorted(olds)} become {new}")
        return
    jobs = [(p, code) for p in files(".antt", ".rt")] + [(p, rules) for p in files("rules.txt", "broken.txt")]
    jobs += [(p, page) for p in ["README.md"] + [os.path.join("docs", n) for n in sorted(os.listdir("docs")) if n.endswith(".md")]]
    for path, how in jobs:
        text = read(path)
        new = how(text, table_of(path, turned))
        new = new.replace("Rattle.base.specs.Contracts.{", "Rattle.base.specs.ExactContracts.{")
        new = new.replace("crates/base/specs/Contracts.antt", "crates/base/specs/ExactContracts.antt")
        if path == "crates/base/specs/Lib.antt":
            new = re.sub(r"(?m)^(pub mod )Contracts$", r"\1ExactContracts", new)
        if new != text:
            with open(path, "w", encoding="utf-8") as f:
                f.write(new)
    if os.path.exists(moved):
        os.rename(moved, moved.replace("Contracts.antt", "ExactContracts.antt"))


main()
