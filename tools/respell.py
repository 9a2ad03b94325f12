#!/usr/bin/env python3
"""Brings the names of specs/ and proofs/ to the kit's spelling: words in snake case, and a dash only between two names.

usage: python3 tools/respell.py [--list]      at the top of the repository, once, after /opt/rattle/port/port.py

It renames definitions, lemmas, constructors, fields and local names in .antt files, and what .rt and .edit files cite of them.
Functions of src/, files, folders and strings keep their names, and so do names that Rattle makes of them.
"""
import os
import re
import sys

TOKEN = re.compile(r"(?<![A-Za-z0-9_'\-◌])([A-Za-z_][A-Za-z0-9_'\-]*)")
# names that would fall together with another, and what they are called instead: (crates or files, old, new)
APART = {
    "askedIn": "requested_in",
    "showsFirst": "shows_in_first",
    "showsSecond": "shows_in_second",
    "put-back": "of_put_back",
    "first-half": "of_first_half",
    "second-half": "of_second_half",
    "rows-drained": "drains_rows",
    "row-swapped": "swaps_row",
    "in-range": "within_range",
    "leaf-set": "sets_leaf",
    "drain-refusal": "drain_refusal_lem",
    "request-refusal": "request_refusal_lem",
    "request-row": "request_row_lem",
    "request-entries": "request_entries_lem",
    "own-fit": "own_is_fit",
    "coins-below": "coins_below_lem",
    "same-sort": "sort_is_same",
    "words-found": "finds_words",
    "fetch-to": "length-fetch_to",
    "flush-to": "length-flush_to",
}
# a level's own row, which is no row_of of a fault; a list's first block, since first_of is a tactic; lemmas that a definition would meet:
# (start of the path, what stands before the name, old, new)
IN_FILES = [
    ("crates/level/", r"(?<![A-Za-z0-9_.'\-])", "(?:row_of|rowOf)", "own_row"),
    ("crates/tree/", r"(?<![A-Za-z0-9_.'\-])", "(?:first_of|firstOf)", "first_block"),
    ("crates/history/", r"(?<![A-Za-z0-9_.'\-])", "put-back", "put_back_all"),
    ("crates/front/proofs/", r"(?<![A-Za-z0-9_.'\-])", "has_room", "room_left"),
    ("crates/oram/proofs/", r"(?<![A-Za-z0-9_.'\-])", "has_room", "room_left"),
]
STD = set(
    "length append drop take map get_or get_or_set cond true false reverse zip set replicate pow le div xor all any concat sum min max and or cons none some".split()
)


def files():
    for root, dirs, names in os.walk("crates"):
        dirs[:] = sorted(d for d in dirs if d != "out")
        for n in sorted(names):
            if n.endswith((".antt", ".rt", ".edit")):
                yield os.path.join(root, n)


def read(p):
    with open(p, encoding="utf-8") as f:
        return f.read()


def camel(part):
    if not re.match(r"[a-z_][A-Za-z0-9_']*[A-Z]", part):
        return part
    return re.sub(r"[A-Z]", lambda m: ("" if m.start() == 0 else "_") + m.group(0).lower(), part)


def made(p):
    return os.path.basename(p) in ("Answers.antt", "Invariants.antt", "Proof.antt")


FUNCTION = re.compile(r"^(?:abbrev |unfoldable )(?:unfoldable )?(?:pub )?([a-z_][A-Za-z0-9_'\-]*) *:")
HEAD = re.compile(r"^( *)(?:abbrev )?(?:unfoldable )?(?:pub )?(?:record |data |ruleset )?([A-Za-z_][A-Za-z0-9_'\-]*)((?: +[a-z_][A-Za-z0-9_'\-]*)*) *(?:\{|\(|:)")


def names():
    """Names that specs/ define, names that proofs/ define, those among them that are functions, and those that are lemmas of a file."""
    specs, lemmas, functions, tops = set(), set(), set(), set()
    for p in files():
        if not p.endswith(".antt"):
            continue
        for line in read(p).splitlines():
            m = HEAD.match(line)
            if m and not made(p) and not line.startswith(("use ", "--")):
                (specs if "/specs/" in p else lemmas).add(m.group(2))
                if not m.group(1):
                    tops.add(m.group(2))
                f = FUNCTION.match(line)
                if f:
                    functions.add(camel(f.group(1)))
    return specs, lemmas, functions, tops


def library():
    """Names that come from the kit."""
    out = set()
    for p in files():
        for got in re.findall(r"use Rattle\.(?:std|native|lib)[\w.]*\.\{([^}]*)\}", read(p)):
            out |= {n.split(" as ")[0].strip() for n in got.split(",")}
    return out


def by_recursion(text):
    """The library's All by recursion goes by the library's name for it: All is another of its words, and the gate takes no other use of it."""
    text = text.replace("AllByRecursion as All", "AllByRecursion")
    return re.sub(r"(?<![A-Za-z0-9_'\-])All(?![A-Za-z0-9_'\-])", "AllByRecursion", text)


def join(parts, words):
    """The first dash stays where a function's name stands before it and after it: blockOf-append, length-append_right."""
    if len(parts) > 2 and parts[0] in words and parts[1] in words:
        return parts[0] + "-" + "_".join(parts[1:])
    return "_".join(parts)


def main(argv, first):
    specs, lemmas, functions, tops = names()
    words = functions | STD
    kit = library()
    new = {}
    every = set()
    for p in files():
        every |= set(TOKEN.findall(read(p)))
    for t in sorted(every):
        parts = [camel(q) for q in t.split("-")]
        if t in APART:
            new[t] = APART[t]
        elif "-" not in t:
            if parts[0] != t:
                new[t] = parts[0]
        elif t in (specs | lemmas) - kit:
            # a lemma on named functions keeps its dash; a field, a constructor or a plain word has none
            if t in tops and all(q in words for q in parts):
                to = "-".join(parts)
            else:
                to = join(parts, words)
            if to != t:
                new[t] = to
    for t in sorted(new):
        # a lemma that would have the name of a definition
        if "-" in t and (new[t] in specs or new[t] in [new[q] for q in new if "-" not in q]):
            new[t] += "_lem"
    if "--list" in argv:
        for a, b in sorted(new.items()):
            print(a, b, "CLASH" if b in every else "")
        return
    for p in files():
        text = found = read(p)

        def turn(m):
            t = m.group(1)
            if text[: m.start()].endswith(("/", "goal.", " c.", "(c.")) or text[m.end() : m.end() + 3] in (".rt", ".ed"):
                return t
            return new.get(t, t)

        comments = []
        mark = r"(?m)(?:^|(?<=\s))(?:--|//).*$" if p.endswith((".antt", ".rt")) else r"(?!)"
        # comments stay as they are
        text = re.sub(mark, lambda m: comments.append(m.group(0)) or "\x00", text)
        for start, before, a, b in IN_FILES:
            if first and p.startswith(start):
                text = re.sub(before + a + r"(?![A-Za-z0-9_'\-])", b, text)
        out = TOKEN.sub(turn, text)
        if "AllByRecursion as All" in out:
            out = by_recursion(out)
        out = re.sub("\x00", lambda m: comments.pop(0), out)
        if out != found:
            with open(p, "w", encoding="utf-8") as f:
                f.write(out)


# twice, since a name may lose a dash only once its parts are turned
main(sys.argv[1:], True)
if "--list" not in sys.argv:
    main([], False)
