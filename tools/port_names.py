#!/usr/bin/env python3
"""Brings the repository's own names to the spelling of today's Rattle: words in snake case, a dash only between two names.

usage: python3 tools/port_names.py          at the top, once, right after the toolchain's port.py
       python3 tools/port_names.py --list   prints the renamings and changes nothing

Definitions of specs/ that were in lower camel case become snake case. A lemma's words are joined by '_', and by '-' where
both sides are names of definitions. The proof of a function f is f_spec. Functions of src/, types and strings stay.
"""

import collections
import glob
import re
import sys

WORD = r"[^\s(){}\[\],;.:\"λ]+"
LOWER_CAMEL = re.compile(r"[a-z][a-z0-9_']*[A-Z][A-Za-z0-9_']*")
DECLARED = re.compile(rf"^(\s*)(?:abbrev |unfoldable )?(?:pub )?({WORD})(?:\s*(?:\([^()]*\)|\{{[^{{}}]*\}}))*\s*:(?:\s|$)")
# Spellings that the rule alone would let fall together with another name of the same file: a lemma named as its function
# gets '_lem', a field or an alias another word.
APART = {
    **{
        name: name.replace("-", "_") + "_lem"
        for name in (
            "body-at body-fits body-sound c-crowd counted-one counts-fit diagonal-mode entry-at entry-sound header-sound held-in-form "
            "is-port kept-firsts kept-slots last-two length-for lent-feed lent-number next-cell number-at pair-of parts-sound "
            "start-number whole-records"
        ).split()
    },
    "on-tables": "at_tables",
    "on-frames": "at_frames",
    "most-ports": "ports_at_most",
    "of-slot": "turn_of_slot",
}
# The same for names that were in snake case already, each in the crates that have the lemma.
LEMMAS = {
    "by_value": ("crates/queued/proofs/CForm.antt",),
    "has_body": ("crates/trace_writer/proofs/",),
    "in_order": ("crates/queue_records/proofs/Ordered.antt", "crates/queued/proofs/Orders.antt", "crates/queued/proofs/Fresh.antt"),
    "is_open": ("crates/imports/proofs/",),
    "of_pair": ("crates/queued/proofs/Heads.antt",),
    "one_more": ("crates/demands/proofs/Rounds.antt",),
}


def files(*patterns):
    return sorted(p for pattern in patterns for p in glob.glob(pattern, recursive=True))


def declared(path):
    """The names that a file of definitions or lemmas declares: at its top, and by where."""
    top, inner = set(), set()
    for line in open(path, encoding="utf-8"):
        if line.lstrip().startswith(("--", "use ")):
            continue
        found = DECLARED.match(line)
        if found:
            (inner if found.group(1) else top).add(found.group(2))
    return top, inner


def snake(name):
    return re.sub(r"(?<=[a-z0-9])([A-Z])", lambda m: "_" + m.group(1).lower(), name)


def joined(name, words):
    """The parts of a lemma's name: '-' between two names, '_' before a plain word."""
    parts = [snake(part) for part in name.split("-")]

    def cut(start):
        if start == len(parts):
            return []
        for end in range(len(parts), start, -1):
            first = "_".join(parts[start:end])
            if first in words:
                rest = cut(end)
                if rest is not None:
                    return [first] + rest
        return None

    return "-".join(cut(0) or ["_".join(parts)])


def renamings():
    specs = files("crates/*/specs/**/*.antt")
    lemmas = files("crates/*/proofs/*.antt")
    words, names, local = set(), set(), set()
    for path in specs:
        top, inner = declared(path)
        words |= {snake(name) for name in top}
        names |= top
        local |= inner
    for path in lemmas:
        top, inner = declared(path)
        names |= top
        local |= inner
    changed = {}
    for name in sorted(names | local):
        if LOWER_CAMEL.fullmatch(name):
            changed[name] = APART.get(name, snake(name))
        elif re.fullmatch(r"[A-Za-z0-9_']+(?:-[A-Za-z0-9_']+)+", name) and "₀" not in name:
            changed[name] = APART.get(name, joined(name, words))
    return {old: new for old, new in changed.items() if old != new}, names | local


def functions():
    found = set()
    for path in files("crates/*/src/**/*.rt"):
        found |= set(re.findall(r"\bfn (\w+)", open(path, encoding="utf-8").read()))
    return found


def turned(text, changed, tokens, strings):
    out, last = [], 0
    pieces = re.split(r'("(?:[^"\\]|\\.)*")', text) if strings else [text]
    for at, piece in enumerate(pieces):
        out.append(piece if at % 2 else tokens.sub(lambda m: changed.get(m.group(), m.group()), piece))
    return "".join(out)


def main():
    changed, names = renamings()
    groups = collections.defaultdict(set)
    for name in names:
        groups[changed.get(name, name)].add(name)
    for new, olds in sorted(groups.items()):
        if len(olds) > 1:
            print(f"falls together: {new}: {' '.join(sorted(olds))}", file=sys.stderr)
    proofs_of = {f"{f.replace('_', '-')}-spec": f"{f}_spec" for f in functions()}
    if "--list" in sys.argv:
        for old, new in sorted(changed.items()):
            print(old, new)
        return
    antt, rust = re.compile(WORD), re.compile(r"\b[a-z]\w*[A-Z]\w*\b")
    for path in files("crates/*/specs/**/*.antt", "crates/*/proofs/**/*.antt", "crates/*/src/**/*.rt", "crates/*/must-fail/*.edit"):
        text = open(path, encoding="utf-8").read()
        code = path.endswith((".rt", ".edit"))
        now = text
        for name, places in LEMMAS.items():
            if path.startswith(places):
                own = rf"(?<![\w'.-]){name}(?![\w'-])" if name != "has_body" else rf"(?<![\w'-]){name}(?![\w'-])"
                now = re.sub(own, name + "_lem", now)
        now = turned(now, changed if code else {**changed, **proofs_of}, rust if code else antt, code)
        if now != text:
            open(path, "w", encoding="utf-8").write(now)


if __name__ == "__main__":
    main()
