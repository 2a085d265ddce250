#!/usr/bin/env python3
"""Counts, in src/, the places of the eight points of docs/DESIGN-PASS.md, at a commit or in the working tree.

    python3 tools/design_places.py [--list] [--point N] [COMMIT]

Each count is of a pattern that is given here; --list prints each place as FILE:LINE: text.
"""

import argparse
import collections
import re
import subprocess
import sys


def git(*words):
    return subprocess.run(["git", *words], check=True, capture_output=True, text=True).stdout


def files(commit, pattern):
    """Pairs of a path and its text, of the files whose path matches."""
    wanted = re.compile(pattern)
    if commit:
        paths = git("ls-tree", "-r", "--name-only", commit, "crates").split("\n")
        for path in sorted(p for p in paths if wanted.search(p)):
            yield path, git("show", f"{commit}:{path}")
    else:
        paths = git("ls-files", "-co", "--exclude-standard", "crates").split("\n")
        for path in sorted({p for p in paths if wanted.search(p)}):
            try:
                with open(path, encoding="utf-8") as file:
                    yield path, file.read()
            except FileNotFoundError:
                pass


class Function:
    """A function of a source file: name, signature, contract clauses, body, and the line where it stands."""

    def __init__(self, path, line, text):
        self.path, self.line, self.text = path, line, text
        self.name = re.search(r"\bfn (\w+)", text).group(1)
        head, _, self.body = text.partition("\n{\n")
        if not self.body:
            head, _, self.body = text.partition(" {\n")
        self.signature = re.split(r"\n\s*(?:requires|ensures)\b", head)[0]
        self.requires = re.findall(r"requires (?:\w+ )?\{ (.*) \}", head)
        self.clauses = re.findall(r"(?:requires|ensures) (?:\w+ )?\{ (.*) \}", head)


def functions(path, text):
    lines = text.split("\n")
    for i, line in enumerate(lines):
        found = re.match(r"(\s*)(?:pub(?:\(crate\))? )?(?:extern \"C\" )?fn \w+", line)
        if not found:
            continue
        indent, end, opened = found.group(1), i, False
        while end < len(lines) and lines[end] != indent + "}":
            opened = opened or lines[end] == indent + "{" or lines[end].endswith(" {")
            if lines[end].endswith(" {}") or (not opened and lines[end].endswith(";")):
                break
            end += 1
        yield Function(path, i + 1, "\n".join(lines[i : end + 1]))


def matching(sources, pattern):
    wanted = re.compile(pattern)
    for path, text in sources:
        for number, line in enumerate(text.split("\n"), 1):
            if wanted.search(line) and not line.lstrip().startswith("//"):
                yield path, number, line.strip()


def declared(sources, pattern, kind):
    """Structs or enums whose body matches."""
    for path, text in sources:
        for found in re.finditer(r"^((?:pub(?:\(crate\))? )?" + kind + r" \w+[^{;\n]*) \{\n(.*?)^\}", text, re.M | re.S):
            if re.search(pattern, found.group(2)):
                yield path, text.count("\n", 0, found.start()) + 1, found.group(1)


def of_functions(sources, test):
    for path, text in sources:
        for function in functions(path, text):
            if test(function):
                yield path, function.line, f"fn {function.name}"


def spelled_alike(sources):
    """Functions that are the same but for numbers, names and types: their texts without comments, each word that is no
    keyword replaced by the place where it first stood."""
    keep = {"fn", "let", "mut", "if", "else", "while", "for", "in", "return", "match", "as", "pub", "loop", "break"}
    groups = collections.defaultdict(list)
    for path, text in sources:
        for function in functions(path, text):
            body = re.sub(r"//.*", "", function.body)
            if body.count("\n") < 3:
                continue
            seen = {}
            words = re.findall(r"\w+|[^\w\s]", body)
            shape = " ".join(w if w in keep or not re.match(r"\w", w) else "v" + str(seen.setdefault(w, len(seen))) for w in words)
            groups[shape].append((path, function.line, f"fn {function.name}"))
    for group in groups.values():
        if len(group) > 1:
            yield from group


def named_alike(sources):
    """Private or open functions of one name in two crates or files, but for `main` and the exports for C."""
    groups = collections.defaultdict(list)
    for path, text in sources:
        for function in functions(path, text):
            if not re.match(r"main$|seal_|fmt$|from$|new$", function.name) and "_c/" not in path:
                groups[function.name].append((path, function.line, f"fn {function.name}"))
    for group in groups.values():
        if len(group) > 1:
            yield from group


def index_loops(sources):
    for path, text in sources:
        lines = text.split("\n")
        for i, line in enumerate(lines):
            if not re.match(r"\s*while ", line):
                continue
            indent = re.match(r"\s*", line).group(0)
            end = i
            while lines[end] != indent + "}":
                end += 1
            if re.search(r"^\s*\w+ [+-]= ", "\n".join(lines[i : end + 1]), re.M):
                yield path, i + 1, line.strip()


def refusal_tests(sources):
    """Tests whether a number is 0, where the number is a refusal: its name says so, or a call whose name says so gave it."""
    for path, text in sources:
        for function in functions(path, text):
            given = set(re.findall(r"let (\w+) = .*refusal\w*\(", function.text)) | {"edge", "shape"}
            for i, line in enumerate(function.text.split("\n")):
                found = re.search(r"if (.*) [!=]= 0 \{", line)
                if found and ("refus" in found.group(1) or found.group(1) in given or (found.group(1) == "n" and "n: u32" in function.text)):
                    yield path, function.line + i, line.strip()


def chains(sources):
    """Tests of one variable for two or more values in a function."""
    for path, text in sources:
        for function in functions(path, text):
            lines = [(i, re.search(r"if (\w+) (?:==|<=) [\w:]+ \{", line)) for i, line in enumerate(function.text.split("\n"))]
            counts = collections.Counter(found.group(1) for _, found in lines if found)
            for i, found in lines:
                if found and counts[found.group(1)] > 1:
                    yield path, function.line + i, found.group(0)


def facts(sources):
    """Facts that stand in the `requires` of three or more functions, each with its functions."""
    groups = collections.defaultdict(set)
    for path, text in sources:
        for function in functions(path, text):
            for clause in function.requires:
                for fact in re.split(r" × ", clause):
                    fact = fact.strip()
                    fact = re.sub(r"^\((.*)\)$", r"\1", fact)
                    words = fact.split()
                    shape = " ".join(w if i == 0 or not re.fullmatch(r"[a-z]\w{0,2}(\.\w+)?\)?", w) else "_" for i, w in enumerate(words))
                    groups[shape].add((path, function.line, f"fn {function.name}"))
    for shape, group in sorted(groups.items(), key=lambda g: -len(g[1])):
        if len(group) > 2:
            for path, line, name in sorted(group):
                yield path, line, f"{name}: {shape}"


def travelling(sources):
    """Neighbouring parameters of the same names and types in three or more functions of a crate."""
    groups = collections.defaultdict(set)
    for path, text in sources:
        crate = path.split("/")[1]
        for function in functions(path, text):
            inside = re.search(r"\((.*?)\)(?: ->|$)", function.signature.replace("\n", " "), re.S)
            names = [p.strip() for p in re.split(r",(?![^\[<(]*[\])>])", inside.group(1)) if p.strip()] if inside else []
            for pair in zip(names, names[1:]):
                groups[crate, pair].add((path, function.line, f"fn {function.name}"))
    for (crate, pair), group in sorted(groups.items(), key=lambda g: -len(g[1])):
        if len(group) > 2 and "self" not in pair[0]:
            for path, line, name in sorted(group):
                yield path, line, f"{name}: {pair[0]}, {pair[1]}"


def points(sources):
    refusal = r"-> u32\b"
    return {
        "1 enums that hold an answer or a refusal": list(declared(sources, r"Refused\(|NoRoot", "enum")),
        "1 structs with a flag, an outcome or a refusal beside a value": list(
            declared(sources, r"\b(divisor|more|ok): bool|outcome: |offset: Offset|refusal: u32|answer: u32", "struct")
        ),
        "1 functions that answer a refusal's number": list(
            of_functions(sources, lambda f: re.search(r"refusal|refused", f.name) and re.search(refusal, f.signature))
        ),
        "1 tests of a number for a refusal": list(refusal_tests(sources)),
        "1 refusals by number": list(matching(sources, r"(^\s*|return |[Rr]efus\w*\()1[0-2]\d\b\)?;?,?$|[Rr]efus\w*\(1[0-2]\d\)|, 1[12]\d\)")),
        "1 chains of tests of a number for a kind": list(chains(sources)),
        "2 functions spelled alike": list(spelled_alike(sources)),
        "2 functions named alike": list(named_alike(sources)),
        "3 loops that count by hand": list(index_loops(sources)),
        "4 equality, conversion and printing by hand": list(
            of_functions(
                sources,
                lambda f: re.match(r"same_|to_rows|from_rows|outcome_of|wide$|digit$|put_digits|byte_of|number$|four_bytes|eight_bytes|decode_number|.*_text$", f.name)
                or (re.search(r"_refusal$", f.name) and re.search(r"match ", f.body) and f.body.count("=>") == 2),
            )
        ),
        "4 fields copied to locals of their names": list(matching(sources, r"let (\w+) = \w+(\.\w+)*\.\1;$")),
        "5 facts in three or more requires": list(facts(sources)),
        "5 parameters that travel together": list(travelling(sources)),
        "6 structs of a buffer with a length beside": list(declared(sources, r"\blen: usize", "struct")),
        "6 functions with a buffer and a length or an offset beside": list(
            of_functions(sources, lambda f: re.search(r"\[u8[;\]].*\b(len|at|start|first): usize|\b(len|at): usize.*\[u8[;\]]", f.signature.replace("\n", " ")))
        ),
        "7 matches on which step to run": list(matching(sources, r"match (op|call|step|self|expected|stage|record\[0\]) \{")),
    }


def main():
    parser = argparse.ArgumentParser()
    parser.add_argument("commit", nargs="?")
    parser.add_argument("--list", action="store_true")
    parser.add_argument("--point")
    options = parser.parse_args()
    sources = list(files(options.commit, r"^crates/[^/]+/src/.*\.rt$"))
    for name, found in points(sources).items():
        if options.point and not name.startswith(options.point):
            continue
        print(f"{len(found):5}  {name}")
        if options.list:
            for path, line, text in found:
                print(f"         {path}:{line}: {text}")
    if not options.point or options.point == "8":
        answers = list(files(options.commit, r"^crates/[^/]+/proofs/.*/(Answers|Invariants)\.antt$"))
        print(f"{len(answers):5}  8 files of answers and invariants of functions")
        print(f"{sum(text.count(chr(10)) for _, text in answers):5}  8 lines in them")
        print(f"{sum(text.count('let it :') for _, text in answers):5}  8 facts said in place (`let it :`)")


if __name__ == "__main__":
    try:
        main()
    except BrokenPipeError:
        sys.exit(1)
