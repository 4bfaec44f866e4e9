#!/usr/bin/env python3
"""Counts forms of an older language in the sources, by point: count_forms.py [COMMIT] [--list].

Without a commit the files of the working tree are read. Each count is one of places that a person has to look at:
docs/DESIGN-PASS.md says what became of each.
"""
import collections
import re
import subprocess
import sys

OPTION_BY_HAND = re.compile(
    r"(None|_) => None,|None => (false|0|return\b)|_ => (false|Err\()|Some\(_\) => None|Err\(\w+\) => (return )?Err\(|Err\(\w+\) => at\(|"
    r"None => (Err|Some)\(|Some\((\w+)\) => (Some|Ok)\((\w+::)*\w*\(?\5\b|Ok\((\w+)\) => Ok\(\8\)|\.is_err\(\)|"
    r"let (Some|Ok)\(.*\belse \{$"
)
NUMBER_CODE = re.compile(r"(-> u8\b|\w+_code\b|Result<[^>]*, u\d+>)")
FLAG = re.compile(r"\b\w+: bool\b")
LOOP = re.compile(r"^\s*(for|while|loop)\b.*\{$")
BY_HAND = re.compile(
    r"^impl.*\b(PartialEq|Eq|Ord|PartialOrd|Clone|Copy|Debug|Hash|Default)\b.* for |\bformat!\(|"
    r"^\s*(pub(\(crate\))? )?fn (same\w*|spells|lists|is_spelled|is_lam|is_num|is_function|is_empty_set|is_type|in_whole_input|printed|"
    r"read_line|refused_line)\("
)
BUFFER = re.compile(r"^\s*(pub(\(crate\))? )?\w+: (\[\w+; \w+\]|Vec<u\d+>|&'\w+ \[u\d+\])|\b1 << |\^ \(|^\s*(pub(\(crate\))? )?bits: u\d+")
CONTRADICTION = re.compile(r"◌≡◌ \{A = ℕ\} 0 1 = cc")


def files(commit, pattern):
    """The files of a commit, or of the working tree, whose paths fit a pattern, with their texts."""
    listing = ["git", "ls-tree", "-r", "--name-only", commit] if commit else ["git", "ls-files", "-co", "--exclude-standard"]
    for path in subprocess.run(listing, capture_output=True, text=True, check=True).stdout.split("\n"):
        if re.fullmatch(pattern, path):
            if commit:
                yield path, subprocess.run(["git", "show", f"{commit}:{path}"], capture_output=True, text=True, check=True).stdout
            else:
                with open(path, encoding="utf-8") as source:
                    yield path, source.read()


def lines_like(sources, pattern):
    """The lines that a pattern is found in, comments, clauses and tests left out."""
    for path, text in sources:
        if path.endswith("tests.rt"):
            continue
        for number, line in enumerate(text.split("\n"), 1):
            if re.match(r"\s*(//|ghost |ensures |requires )", line):
                continue
            if pattern.search(line):
                yield f"{path}:{number}: {line.strip()}"


def functions(sources):
    """Each function with its path, contract and body."""
    for path, text in sources:
        if path.endswith("tests.rt"):
            continue
        lines = text.split("\n")
        at = 0
        while at < len(lines):
            head = re.match(r"(\s*)(pub(\(crate\))? )?fn (\w+)", lines[at])
            if not head:
                at += 1
                continue
            indent, name = head.group(1), head.group(4)
            end, begun = at, lines[at].endswith("{")
            while not re.match(re.escape(indent) + r"(\}|\{\})$", lines[end]) and (begun or not lines[end].endswith(";")):
                end += 1
                begun = begun or lines[end].endswith("{")
            part = lines[at : end + 1]
            contract = [line.strip() for line in part if re.match(r"\s*(ensures|requires) ", line)]
            opening = next((i for i, line in enumerate(part) if line.strip() == "{" or line.endswith(" {")), None)
            body = part[opening + 1 : -1] if opening is not None else part[1:-1]
            yield path, name, contract, "\n".join(body)
            at = end + 1


def shape(body):
    """A body with its names and literals forgotten."""
    words = re.findall(r"b?\"[^\"]*\"|b?'[^']*'|\w+|[^\s\w]", re.sub(r"//.*", "", body))
    keywords = {"match", "if", "else", "let", "for", "in", "return", "Some", "None", "Ok", "Err", "self", "true", "false", "while", "mut", "as"}
    return tuple(word if word in keywords or not re.match(r"[\w\"'b]", word) else "_" for word in words)


def twins(sources):
    """Groups of functions whose bodies have one shape of at least 18 words, or one name and the same shorter body."""
    groups = collections.defaultdict(list)
    for path, name, _, body in functions(sources):
        form = shape(body)
        if len(form) >= 18:
            groups[form].append(f"{path}: {name}")
        elif body.strip():
            groups[(name, body.strip())].append(f"{path}: {name}")
    return [group for group in groups.values() if len(group) > 1]


def repeated_facts(sources):
    """Preconditions that three or more functions of a crate ask for, and how many do."""
    count = collections.Counter()
    for path, _, contract, _ in functions(sources):
        for clause in contract:
            if clause.startswith("requires "):
                count[(path.split("/")[1], re.sub(r"^requires \w+ ", "", clause))] += 1
    return [f"{crate}: {fact} ({number} functions)" for (crate, fact), number in count.items() if number >= 3]


def main():
    arguments = [argument for argument in sys.argv[1:] if argument != "--list"]
    commit = arguments[0] if arguments else None
    sources = list(files(commit, r"crates/\w+/src/\w+\.rt"))
    proofs = list(files(commit, r"crates/\w+/proofs/.*\.antt"))
    answers = [text for path, text in proofs if path.endswith("/Answers.antt")]
    found = {
        "1 option or result taken apart by hand": list(lines_like(sources, OPTION_BY_HAND)),
        "1 numbers for kinds": list(lines_like(sources, NUMBER_CODE)),
        "1 flags": list(lines_like(sources, FLAG)),
        "2 functions of one shape": twins(sources),
        "3 loops": list(lines_like(sources, LOOP)),
        "4 equality, order, copying, conversion, printing by hand": list(lines_like(sources, BY_HAND)),
        "5 facts that three or more functions ask for": repeated_facts(sources),
        "6 buffers, parallel arrays, packed bits": list(lines_like(sources, BUFFER)),
        "7 function pointers, closures kept, dyn": list(lines_like(sources, re.compile(r"\bdyn \w|: fn\("))),
        "8 contradictions by way of numbers": [path for path, text in proofs for _ in CONTRADICTION.findall(text)],
    }
    for point, places in found.items():
        print(f"{point}: {len(places)}")
        if "--list" in sys.argv:
            for place in places:
                print("   ", place)
    print("8 answers:", sum(len(re.findall(r"^pub \S+ : goal\.", text, re.M)) for text in answers), "in", len(answers), "files")
    print("8 lines of proofs:", sum(text.count("\n") for _, text in proofs))


if __name__ == "__main__":
    main()
