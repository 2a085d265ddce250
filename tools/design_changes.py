#!/usr/bin/env python3
"""Prints, as tables, what the open part of the repository was at a commit and is in the working tree, where the two differ:
open functions with their clauses, open types, definitions of specs/, and the statements of the theorems that docs/CLAIMS.md
cites.

    python3 tools/design_changes.py COMMIT
"""

import re
import subprocess
import sys


def git(*words):
    return subprocess.run(["git", *words], check=True, capture_output=True, text=True).stdout


def tree(commit):
    if commit:
        return {p: git("show", f"{commit}:{p}") for p in git("ls-tree", "-r", "--name-only", commit, "crates").split("\n") if wanted(p)}
    paths = {p for p in git("ls-files", "-co", "--exclude-standard", "crates").split("\n") if wanted(p)}
    texts = {}
    for path in sorted(paths):
        try:
            with open(path, encoding="utf-8") as file:
                texts[path] = file.read()
        except FileNotFoundError:
            pass
    return texts


def wanted(path):
    return path.endswith((".rt", ".antt")) and "/out/" not in path


def squeezed(text):
    return re.sub(r",? ([)\]])", r"\1", re.sub(r"([(\[]) ", r"\1", " ".join(text.split())))


def functions(texts):
    """Open functions and methods, those of open traits too: the signature, and the clauses."""
    found = {}
    for path, text in texts.items():
        if not path.endswith(".rt"):
            continue
        crate, owner, trait = path.split("/")[1], "", False
        begins = r"^(impl|pub trait)(?:<[^>]*>)? (?:\w+ for )?(\w+)"
        function = r"^(?:    )?(pub (?:extern \"C\" )?|(?:final )?)fn (\w+)(.*?)(?:\{$|;$)"
        for m in re.finditer(rf"{begins}|{function}|^\}}$", text, re.M | re.S):
            if m[1]:
                owner, trait = m[2] + "::", m[1] != "impl"
            elif not m[4]:
                owner, trait = "", False
            elif trait or m[3].startswith("pub "):
                head = squeezed(m[5])
                signature = re.split(r" (?=requires |ensures )", head)[0]
                clauses = re.split(r" (?=requires |ensures )", head)[1:]
                name = (owner if text[m.start()] == " " else "") + m[4]
                found[crate, name] = "fn " + m[4] + signature, clauses
    return found


def types(texts):
    found = {}
    for path, text in texts.items():
        if path.endswith(".rt"):
            for m in re.finditer(r"^pub (?:(struct|enum|type) (\w+)(.*?)(?:^\}|;)$|trait (\w+)(.*?)^\}$)", text, re.M | re.S):
                if m[4]:
                    found[path.split("/")[1], m[4]] = squeezed(f"trait {m[4]} {{ {' '.join(re.findall(r'^    ghost .*?;$', m[5], re.M | re.S))[:-1]} }}")
                    continue
                body = re.sub(r"//.*", "", m[3])
                found[path.split("/")[1], m[2]] = squeezed(f"{m[1]} {m[2]}{body}") + (" }" if "{" in body and m[1] != "type" else "")
    return found


def declarations(texts, folder):
    """Declarations of antt files: the text of each, up to the next empty line. Of specs/ the definitions alone."""
    found = {}
    for path, text in texts.items():
        if path.endswith(".antt") and f"/{folder}/" in path and not re.search(r"/(Answers|Invariants)\.antt$", path):
            crate = path.split("/")[1]
            for block in re.split(r"\n\s*\n", text):
                block = "\n".join(l for l in block.split("\n") if not l.lstrip().startswith(("--", "use ", "pub use ", "unfoldable pub use ", "unfolding ")))
                m = re.match(r"\s*(?:(?:unfoldable|abbrev|pub|pattern) )*(?:(data|record|ruleset) )?([^\s:]+)", block)
                lemma = folder == "specs" and not re.match(r"\s*(?:pub )?(?:abbrev|unfoldable|data|record|open) ", block)
                if m and ":" in block and not lemma and m[2] not in ("module", "infixr", "infixl", "infix", "mod"):
                    found[crate, path[len(f"crates/{crate}/{folder}/") :], m[2]] = squeezed(block)
    return found


def statements(texts):
    """The statement alone of each declaration of proofs/."""
    found = {}
    for key, text in declarations(texts, "proofs").items():
        places = [m.start() for m in re.finditer(rf"(?<!\S){re.escape(key[2])}(?!\S)", text)]
        found[key] = text if re.match(r"(?:pub )?(data|record)", text) or len(places) < 2 else text[: places[1]].rstrip()
    return found


def cell(text):
    return "`" + text.replace("|", "\\|").replace("`", "'") + "`" if text else "-"


def table(title, columns, rows):
    print(f"### {title}\n")
    print("| " + " | ".join(columns) + " |\n|" + "---|" * len(columns))
    for row in rows:
        print("| " + " | ".join(row) + " |")
    print()


def compared(old, new, show=lambda x: x):
    for key in sorted(set(old) | set(new)):
        a, b = old.get(key), new.get(key)
        if a != b:
            yield key, show(a) if a else "", show(b) if b else ""


def main():
    before, now = tree(sys.argv[1]), tree(None)
    shown = lambda f: " ".join([f[0], *f[1]])
    rows = [(cell(c), cell(n), cell(a), cell(b)) for (c, n), a, b in compared(functions(before), functions(now), shown)]
    table("Open functions", ["Crate", "Function", "Before", "Now"], rows)
    rows = [(cell(c), cell(a), cell(b)) for (c, _), a, b in compared(types(before), types(now))]
    table("Open types", ["Crate", "Before", "Now"], rows)
    rows = [(cell(f"{c} {p}"), cell(a), cell(b)) for (c, p, _), a, b in compared(declarations(before, "specs"), declarations(now, "specs"))]
    table("Definitions", ["Crate and file of specs/", "Before", "Now"], rows)
    cited = set(re.findall(r"`(\w+/proofs/[^`]+)` `([^`]+)`", git("show", f"{sys.argv[1]}:docs/CLAIMS.md")))
    cited = {(p.split("/")[0], p.split("/", 2)[2], n) for p, n in cited}
    old, new = statements(before), statements(now)
    rows = [(cell(f"{c} {p}"), cell(a), cell(b)) for (c, p, n), a, b in compared(old, new) if (c, p, n) in cited]
    table("Theorems that docs/CLAIMS.md cites", ["Crate and file of proofs/", "Before", "Now"], rows)


if __name__ == "__main__":
    main()
