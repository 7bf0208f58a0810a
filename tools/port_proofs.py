#!/usr/bin/env python3
"""Turns the old proof files of functions, Proof.antt by a list of answers in order, into Invariants.antt and Answers.antt by name.

usage: python3 tools/port_proofs.py NAMES.json CRATE [FUNCTION..]    at the top

NAMES.json is what `rt check --generated FOLDER --old-names` writes in the crate: each goal's and each step's old and new name.
Answers that only say `search rules` are left out, since the check tries that itself. A file that this does not understand stays.
"""

import json
import os
import re
import sys

WORD = r"[^\s(){}\[\],;:\"λ.]+"
OPERATORS = re.compile(r"^◌(.+)◌$")


def blocks(text):
    """The declarations at the top of a file, each as a list of lines; comments above one stay with it."""
    found, comment = [], []
    for line in text.split("\n"):
        if line.startswith("--"):
            comment.append(line)
        elif line and not line[0].isspace() and line[0] not in ")]}":
            found.append(comment + [line])
            comment = []
        elif line.strip() and found:
            found[-1].append(line)
    return found


def arguments(text):
    """The arguments of an application, each as its text."""
    found, at = [], 0
    while True:
        while at < len(text) and text[at].isspace():
            at += 1
        if at >= len(text) or text[at] == ")":
            return found, at
        start, depth = at, 0
        while at < len(text):
            if text[at] in "({[":
                depth += 1
            elif text[at] in ")}]":
                if depth == 0:
                    break
                depth -= 1
            elif text[at].isspace() and depth == 0:
                break
            at += 1
        found.append(text[start:at])


class Function:
    def __init__(self, names):
        self.names = names
        self.parent, self.step, self.params = {}, {}, {}
        for old, parent, (old_step, new_step), callee, _ in names["places"]:
            self.parent[old] = None if parent == old else parent
            self.step[old] = (old_step, new_step)
            if callee in names["params"]:
                self.params[new_step] = names["params"][callee]

    def path(self, place, parts):
        """The new path of an old one from a place: the steps at or above it are all fields of c now."""
        parts = list(parts)
        while parts and parts[0] == "before":
            place = self.parent.get(place) or place
            parts.pop(0)
        if not parts:
            return place, []
        first, here = parts[0], place
        # A step whose name was taken for a lemma's.
        if first.endswith("_lem") and not any(plain(first) == plain(old) for old, _ in self.step.values()):
            first = parts[0] = first[:-4]
        while here is not None:
            old_step, new_step = self.step.get(here, ("", ""))
            if old_step and plain(first) == plain(old_step):
                return place, [new_step] + parts[1:]
            here = self.parent.get(here)
        everywhere = {new for old, new in self.step.values() if old and plain(first) == plain(old)}
        if len(everywhere) == 1:
            return place, [everywhere.pop()] + parts[1:]
        return place, parts


def plain(name):
    return name.replace("«", "").replace("»", "").replace("_lem", "").replace("_", "-")


def of_l(text, renamed):
    """A text with its parameters read off `l`, but for those that a λ binds again."""

    def all_of(part, names):
        return re.sub(rf"(?<![\w.'«»-])({WORD})(?!\s*=\s)", lambda m: "l." + names[m.group(1)] if m.group(1) in names else m.group(), part)

    found = re.search(r"λ ([^.]*)\.(?=\s)", text)
    if not found:
        return all_of(text, renamed)
    at, depth = found.end(), 0
    while at < len(text) and depth >= 0:
        depth += (text[at] in "([{") - (text[at] in ")]}")
        at += 1
    end = at - 1 if depth < 0 else at
    bound = re.sub(r":[^)]*", "", found.group(1)).replace("(", " ").replace(")", " ").split()
    inner = {name: new for name, new in renamed.items() if name not in bound}
    binders = re.sub(r":[^)]*", lambda m: all_of(m.group(), renamed), found.group(1))
    return all_of(text[: found.start()], renamed) + "λ " + binders + "." + of_l(text[found.end() : end], inner) + of_l(text[end:], renamed)


def quoted(name):
    return f"«{name}»" if name in ("open", "in", "as", "data", "record", "ruleset", "use", "pub") else name


def turned(body, function, place):
    """An answer's text with its paths brought to today's names."""
    places = {"c": place}
    # An alias of an earlier place is c itself now.
    alias = re.compile(rf"let ({WORD}) = ({WORD})((?:\.before)+) in\s*")
    while True:
        found = next((m for m in alias.finditer(body) if m.group(2) in places), None)
        if not found:
            break
        steps = found.group(3).count(".before")
        at, _ = function.path(places[found.group(2)], ["before"] * steps)
        places[found.group(1)] = at
        body = body[: found.start()] + body[found.end() :]

    def one(m):
        if m.group(1) not in places:
            return m.group()
        _, parts = function.path(places[m.group(1)], m.group(2)[1:].split("."))
        if re.match(r"copy(-\d+)?$", parts[0]) and parts[1:3] == ["ensures", "1"]:
            del parts[2]
        if len(parts) > 2 and parts[1] == "new" and parts[2].isdigit() and int(parts[2]) < len(function.params.get(parts[0], [])):
            parts[2] = function.params[parts[0]][int(parts[2])]
        return ".".join(["c"] + [quoted(p) for p in parts])

    body = body.replace(".well-formed", ".well_formed")
    body = re.sub(r"\.ptr(?![\w'-])", ".ref_ptr", body)
    body = re.sub(rf"(?<![\w.'«»-])({WORD})((?:\.{WORD})+)", one, body)
    for name, step in re.findall(rf"let ({WORD}) = c\.({WORD}) in", body):
        params = function.params.get(step, [])
        body = re.sub(rf"(?<![\w.'-]){re.escape(name)}\.new\.(\d)", lambda m: f"{name}.new.{params[int(m.group(1))]}" if int(m.group(1)) < len(params) else m.group(), body)
    return body


def used(name, text):
    operator = OPERATORS.match(name)
    if operator:
        return re.search(r"(?<=[\s(])" + re.escape(operator.group(1)) + r"(?=[\s)])", text) is not None
    if "◌" in name:
        return any(part and part in text for part in name.split("◌"))
    return re.search(rf"(?<![\w'-]){re.escape(name)}(?![\w'-])", text) is not None


def imports(uses, text):
    lines = []
    for module, names in uses:
        if names is None:
            if used(module.split(" as ")[-1].split(".")[-1], text):
                lines.append(f"use {module}")
            continue
        kept = [n for n in names if used(n.split(" as ")[-1], text)]
        if kept:
            lines.append(f"use {module}.{{{', '.join(kept)}}}")
    return lines


def turn(folder, module, names):
    path = os.path.join(folder, "Proof.antt")
    text = open(path, encoding="utf-8").read()
    function = Function(names)
    head, uses, decls = [], [], {}
    order = []
    for block in blocks(text):
        comment = [l for l in block if l.startswith("--")]
        lines = [l for l in block if not l.startswith("--")]
        if lines[0].startswith("use "):
            if not uses and not head:
                head = comment
            found = re.match(r"use ([^{]+)\.\{(.*)\}$", lines[0])
            if found:
                uses.append((found.group(1), [n.strip() for n in found.group(2).split(",")]))
            else:
                uses.append((lines[0][4:], None))
            continue
        if lines[0].startswith("unfolding"):
            order[-1][1].append(("unfolding", lines, comment))
            continue
        found = re.match(rf"(?:abbrev |unfoldable )?(?:pub )?({WORD})\s", lines[0] + " ")
        name = found.group(1)
        if order and order[-1][0] == name:
            order[-1][1].append(("clause", lines, comment))
        else:
            order.append((name, [("signature", lines, comment)]))
    decls = dict(order)
    spec = order[-1]
    if not spec[0].endswith("_spec") and not spec[0].endswith("-spec"):
        raise LookupError("the last declaration is not the proof")
    unfolding = next((" ".join(l) for kind, l, _ in spec[1] if kind == "unfolding"), None)
    body = "\n".join("\n".join(l) for kind, l, _ in spec[1] if kind == "clause")
    at = body.find("tie.spec")
    if at < 0:
        raise LookupError("no tie.spec")
    args, _ = arguments(body[at + len("tie.spec") :])
    loops = names["loops"]
    needs = names["needs"]
    if len(args) != 2 * len(loops) + len(needs):
        raise LookupError(f"{len(args)} arguments for {len(loops)} loops and {len(needs)} goals")
    loop_args, need_args = args[: 2 * len(loops)], args[2 * len(loops) :]
    invariants, answers = [], []
    handled = {spec[0]}
    for k, ((old, new), variables) in enumerate(loops):
        changed = names["changed"][k]
        initial = {}
        wanted = []
        for v, c in zip(variables, changed):
            wanted.append(("initial." + v) if c else v)
        wanted += [v for v, c in zip(variables, changed) if c]
        for kind, arg in (("invariant", loop_args[2 * k]), ("decreases", loop_args[2 * k + 1])):
            if arg in decls:
                handled.add(arg)
                parts = decls[arg]
                clause = "\n".join(next(l for kd, l, _ in parts if kd == "clause"))
                comment = [l for _, _, cm in parts for l in cm]
                opened = next((" ".join(l) for kd, l, _ in parts if kd == "unfolding"), None)
                left, _, right = clause.partition("=")
                params = left.split()[1:]
            else:
                found = re.match(r"\(λ ([^.]*)\.\s*(.*)\)$", arg, re.S)
                if not found:
                    raise LookupError(f"the {kind} {arg[:40]}")
                params, right, comment, opened = found.group(1).split(), found.group(2), [], None
            if len(params) != len(wanted):
                raise LookupError(f"{kind}: {len(params)} parameters for {wanted}")
            renamed = dict(zip(params, wanted))
            renamed.pop("_", None)
            right = of_l(right, renamed)
            invariants.append((kind, new, comment, opened, right.strip()))
    for (old, new), arg, (place, _) in zip(needs, need_args, names["asked_at"]):
        if arg in decls:
            handled.add(arg)
            parts = decls[arg]
            comment = [l for _, _, cm in parts for l in cm]
            opened = next((" ".join(l) for kd, l, _ in parts if kd == "unfolding"), None)
            clauses = ["\n".join(l) for kd, l, _ in parts if kd == "clause"]
            if len(clauses) != 1:
                raise LookupError(f"{arg} has {len(clauses)} clauses")
            found = re.match(rf"{re.escape(arg)}\s+c((?:\s+\S+)*?)\s*=\s?(.*)$", clauses[0], re.S)
            if not found:
                raise LookupError(f"the answer {arg}")
            taken, text_of = found.group(1).split(), found.group(2)
        else:
            comment, opened = [], unfolding
            found = re.match(r"\(λ c( [^.]*)?\.\s*(.*)\)$", arg, re.S)
            if not found:
                raise LookupError(f"the argument {arg[:60]}")
            taken, text_of = (found.group(1) or "").split(), found.group(2)
        taken = [name for name in taken if not name.startswith("κ")]
        tried = re.match(r"(overflow|bounds|slice_bounds|nonzero|offset_bounds)|.*-smaller$", new)
        if text_of.strip() in ("search rules", "(search rules)") and (tried or not opened):
            continue
        if new.startswith(("enum_told", "enum_known")) and text_of.startswith("search "):
            continue
        text_of = turned(text_of, function, place)
        for alias in re.findall(rf"let ({WORD}) = c\.args in", text_of):
            for was, now in names["args"]:
                if was.startswith(".args "):
                    text_of = re.sub(rf"(?<![\w.'-]){re.escape(alias)}\.{re.escape(was[7:])}(?![\w'-])", f"{alias}.{now[7:]}", text_of)
        for was, now in names["args"]:
            text_of = re.sub(re.escape(was[1:].replace(" ", "")) + r"(?![\w'-])", now[1:].replace(" ", ""), text_of)
        if taken:
            text_of = f"λ {' '.join(taken)}. {text_of.strip()}"
        arm = re.findall(r"in-([A-Z]\w*)", new)
        if arm:
            text_of = re.sub(rf"c\.(?:enum_(?:told|known)[\w-]*|[\w-]+-\d)\.given\.1(?![\w'-])", f"c.in-{arm[-1]}.is", text_of)
        answers.append((new, comment, opened, text_of))
    rest = [(n, parts) for n, parts in order if n not in handled]
    called = {arg: new for (old, new), arg in zip(needs, need_args) if arg in decls}
    for arg, new in called.items():
        own = rf"(?<![\w.'«»-]){re.escape(arg)}(?![\w'-])"
        answers = [(n, c, o, re.sub(own, new, r)) for n, c, o, r in answers]
    uses = [(m, n) for m, n in uses if not m.endswith((".Statement", ".Tie as tie"))]
    if invariants:
        lines, plain_loop = [], set()
        for kind, new, comment, opened, right in invariants:
            lines += comment + [f"abbrev pub {kind}-{new} : goal.{kind}-{new}"] + ([opened] if opened else []) + [f"{kind}-{new} l = {right}", ""]
        body = "\n".join(lines)
        out = head + imports(uses, body) + [f"use {module}.Given as goal", ""] + [body]
        open(os.path.join(folder, "Invariants.antt"), "w", encoding="utf-8").write("\n".join(out).rstrip() + "\n")
    if answers or rest:
        lines = []
        for n, parts in rest:
            for _, l, comment in parts:
                lines += comment + l
            lines.append("")
        for new, comment, opened, right in answers:
            start = f"{new} c ="
            right = right.strip()
            first = start + ("\n    " if "\n" in right else " ") + right
            lines += comment + [f"pub {new} : goal.{new}"] + ([opened] if opened else []) + [first, ""]
        body = "\n".join(lines)
        out = head + imports(uses, body) + [f"use {module}.Goals as goal", ""] + [body]
        open(os.path.join(folder, "Answers.antt"), "w", encoding="utf-8").write("\n".join(out).rstrip() + "\n")
    os.remove(path)
    return len(answers)


def main():
    table, crate, wanted = json.load(open(sys.argv[1])), sys.argv[2], sys.argv[3:]
    for key, names in sorted(table.items()):
        found = re.match(r"Rattle-(\w+)-proofs\.(.*)\.Lts$", key)
        if not found or found.group(1) != crate:
            continue
        folder = os.path.join("crates", crate, "proofs", *found.group(2).split("."))
        if wanted and found.group(2) not in wanted:
            continue
        if not os.path.exists(os.path.join(folder, "Proof.antt")):
            print(f"no file: {folder}")
            continue
        try:
            n = turn(folder, f"Rattle.{crate}.proofs.{found.group(2)}", names)
            print(f"turned: {folder}: {n} answers")
        except LookupError as e:
            print(f"left: {folder}: {e}")


if __name__ == "__main__":
    main()
