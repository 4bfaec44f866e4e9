#!/usr/bin/env python3
"""Respells this repository's own names in antt as Rattle's style has them: words in snake case, types, facts and modules in
upper camel case.

usage: python3 tools/respell_names.py      at the top of the repository, once, after the toolchain's own port script

An own name is one that a file of specs/ or proofs/ defines or binds. Names of the library keep their dashes, and are known
by the imports. The names of goals and of steps that proofs cite are made from names of the code, which keep their
underscores. Functions of src/, strings, inputs and outputs are not touched. It stops, before it writes, where two names
would fall together.
"""

import collections
import os
import re
import sys

NAME = re.compile(r"(?<![\w'-])[A-Za-z_][\w']*(?:-[\w']+)+(?![\w'])")
BINDER = re.compile(r"[({]\s*((?:[^\s(){}:]+ )+):")
SIGNATURE = re.compile(r"(?m)^\s*((?:pub |abbrev |unfoldable )*)([^\s(){}]+(?: [^\s(){}]+)*) :(?!:)\s*(.*)$")
IMPORT = re.compile(r"(?m)^(?:ghost )?use ([A-Za-z_][\w.\-]*?)(?:\.\{([^}]*)\})?;?\s*$")
STEPS = [
    ("in-err-", "in_err-"), ("in-ok-", "in_ok-"), ("in-default", "in_default"), ("type-inv", "type_inv"),
    ("invariant-of-", "invariant_of-"), ("from-residual", "from_residual"), ("slice-bounds-", "slice_bounds-"),
    ("overflow-add-", "overflow_add-"), ("overflow-sub-", "overflow_sub-"), ("overflow-mul-", "overflow_mul-"),
    ("overflow-cast-", "overflow_cast-"), ("overflow-step-", "overflow_step-"),
]


def files(*endings):
    for top in ("crates", "docs"):
        for folder, dirs, names in os.walk(top):
            dirs[:] = sorted(d for d in dirs if d not in ("out", "data"))
            for name in sorted(names):
                if name.endswith(endings):
                    yield os.path.join(folder, name)


def read(path):
    with open(path, encoding="utf-8") as f:
        return f.read()


def without_comments(path, text):
    return re.sub(r"//.*" if path.endswith(".rt") else r"--.*", "", text)


def library_names():
    """The dashed names that some file imports from outside the repository."""
    own_crates = set(os.listdir("crates"))
    found = set()
    for path in files(".antt", ".rt"):
        for where, items in IMPORT.findall(without_comments(path, read(path))):
            parts = where.split(".")
            if parts[0] == "Rattle" and len(parts) > 1 and parts[1] in own_crates:
                continue
            found.update(re.sub(r" as .*", "", item).strip() for item in items.split(","))
    return {n for n in found if NAME.fullmatch(n)}


def own_names():
    """The dashed names that some file of specs/ or proofs/ defines or binds; goals are named by the check, not here."""
    found = set()
    for path in files(".antt"):
        text = without_comments(path, read(path))
        for _, names, claim in SIGNATURE.findall(text):
            if not claim.startswith("goal.") and "=" not in names.split():
                found.update(names.split())
        for names in BINDER.findall(text):
            found.update(names.split())
        for _, items in IMPORT.findall(text):
            found.update(re.sub(r".* as ", "", item).strip() for item in items.split(",") if " as " in item)
        found.update(re.findall(r"(?:record|data|let|where) ([^\s({:]+)", text))
        for names in re.findall(r"λ ([^.]*)\.", text):
            found.update(re.split(r"[\s(),:]+", names))
    return {n for n in found if NAME.fullmatch(n)}


def code_names():
    """The names of src/ that have an underscore: functions, parameters, variables and labels of clauses."""
    found = set()
    for path in files(".rt"):
        found.update(re.findall(r"[A-Za-z][A-Za-z0-9]*(?:_[A-Za-z0-9]+)+", without_comments(path, read(path))))
    return found


def declared_types():
    """The types that src/ declares: a fact of the same spelling gets a Has before it."""
    found = set()
    for path in files(".rt"):
        found.update(re.findall(r"(?m)^\s*(?:pub(?:\(\w+\))? )?(?:struct|enum|trait|type) (\w+)", read(path)))
    return found


def respelled(name, types):
    if name[0].isupper():
        new = "".join(part[0].upper() + part[1:] for part in name.split("-"))
        return "Has" + new if new in types else new
    return name.replace("-", "_")


def step_respelled(name, code):
    """The name of a step or a goal: the parts that are names of the code get their underscores back."""
    if name.replace("-", "_") in code:
        return name.replace("-", "_")
    for old, new in STEPS:
        name = re.sub(r"(?<![\w])" + old, new, name)
    parts = name.split("-")
    spelled, i = [], 0
    while i < len(parts):
        for j in range(len(parts), i, -1):
            if j > i + 1 and "_".join(parts[i:j]) in code:
                spelled.append("_".join(parts[i:j]))
                i = j
                break
        else:
            spelled.append(parts[i])
            i += 1
    return "-".join(spelled)


def spans(path, text):
    """The parts of a text that are antt: all of an antt file, and the ghost parts of source."""
    if path.endswith(".antt"):
        return [(0, len(text))]
    found = []
    for m in re.finditer(r"(?m)^[ \t]*(?:ghost use [^;]*;|pub ghost [^;]*;|ghost [^;]*;|(?:requires|ensures)\*?[^{\n]*\{.*$)", text):
        found.append(m.span())
    return found


def main():
    library, own, code, types = library_names(), own_names(), code_names(), declared_types()
    both = sorted(library & own)
    if both:
        sys.exit("defined here and in the library: " + ", ".join(both))
    turned = {}
    taken = collections.defaultdict(set)
    for path in files(".antt", ".rt"):
        text = read(path)
        plain = without_comments(path, text)
        for a, b in spans(path, plain):
            for name in NAME.findall(plain[a:b]):
                if name in library:
                    continue
                new = respelled(name, types) if name in own else step_respelled(name, code)
                if name not in own and new == name and not re.match(r"(in|if|then|else|loop|returns|invariant|decreases|overflow|bounds|index|match|not|new|digit|byte|row)-|(deref|field)-\d", name):
                    new = respelled(name, types)
                turned[name] = new
    for name, new in turned.items():
        taken[new].add(name)
    fallen = {new: names for new, names in taken.items() if len(names) > 1}
    if fallen:
        sys.exit("names that fall together: " + str(fallen))
    for path in files(".antt", ".rt"):
        text = read(path)
        out, at = [], 0
        for a, b in spans(path, text):
            out.append(text[at:a])
            part = text[a:b]
            lines = []
            for line in part.split("\n"):
                note = "--" if path.endswith(".antt") else "//"
                cut = line.find(note)
                head, tail = (line, "") if cut < 0 else (line[:cut], line[cut:])
                head = NAME.sub(lambda m: turned.get(m.group(), m.group()), head)
                tail = NAME.sub(lambda m: turned[m.group()] if m.group() in own and m.group()[0].isupper() else m.group(), tail)
                lines.append(head + tail)
            out.append("\n".join(lines))
            at = b
        out.append(text[at:])
        new = "".join(out)
        if new != text:
            with open(path, "w", encoding="utf-8") as f:
                f.write(new)
    for path in files(".md"):
        text = read(path)
        new = re.sub(r"`[^`\n]*`", lambda q: NAME.sub(lambda m: turned[m.group()] if m.group() in own else m.group(), q.group()), text)
        if new != text:
            with open(path, "w", encoding="utf-8") as f:
                f.write(new)
    for name, new in sorted(turned.items()):
        print(name, new)


if __name__ == "__main__":
    main()
