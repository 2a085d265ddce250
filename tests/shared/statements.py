"""Reads Rattle's files as far as tests/claims and tests/documents/cited need it: which names a file declares, what it
imports, what each of its declarations says, and which names of a statement lead to a definition that stands under
proofs/."""
import os
import re

PARAMETER = r"(?:\((?:[^()]|\((?:[^()]|\([^()]*\))*\))*\)|\{[^{}]*\})"
DECLARED = re.compile(r"((?:abbrev |unfoldable |pub )*)(data |record )?([^\s(){}:,=]+)((?: " + PARAMETER + r")*) :(?: (.*)|$)")


def declared(path):
    """The names that a file declares: functions and types of code, definitions, theorems and fields of records; of
    another file every word."""
    if path.endswith(".antt"):
        return set(declarations(read(path)))
    if path.endswith(".rt"):
        return set(re.findall(r"\b(?:fn|struct|enum|const|mod) (\w+)", read(path)))
    return set(re.findall(r"[\w-]+", read(path)))


def imports(text):
    """The full path of each name that a file imports."""
    names = {}
    for m in re.finditer(r"^\s*(?:ghost )?use ([^{\n;]+?)(?:\.\{([^}]*)\})?(?: as ([^\s;]+))?;?$", text, re.M):
        base, items, alias = m[1].strip(), m[2], m[3]
        if items is None:
            names[alias or base.split(".")[-1]] = base
            continue
        for item in filter(None, (i.strip() for i in items.split(","))):
            path, _, new = item.partition(" as ")
            names[new.strip() or path.split(".")[-1]] = base + "." + path
    return names


def declarations(text):
    """Of each name that a file declares: what it says, with the parameters of the sections around it, and whether it
    is a definition, which is marked as one that unfolds or is a type, and not a lemma."""
    found, sections, lines, i = {}, [], text.split("\n"), 0
    while i < len(lines):
        body = lines[i].strip()
        indent = len(lines[i]) - len(lines[i].lstrip())
        i += 1
        if not body or body.startswith(("--", "use ", "let ", "|")):
            continue
        while sections and sections[-1][0] >= indent:
            sections.pop()
        more = i
        while more < len(lines) and lines[more].strip() and len(lines[more]) - len(lines[more].lstrip()) > indent:
            more += 1
        if body.startswith("module "):
            while not body.endswith("where"):
                body += " " + lines[i].strip()
                i += 1
            sections.append((indent, body[len("module "):-len("where")]))
        elif m := DECLARED.match(body):
            said = " ".join([s for _, s in sections] + [m[4], m[5] or ""] + [l.strip() for l in lines[i:more]])
            definition = bool(m[2]) or "abbrev" in m[1] or "unfoldable" in m[1]
            found.setdefault(m[3], (said, definition))
    return found


def words(said):
    return set(re.findall(r"[^\s(){}\[\],;]+", said))


def read(path):
    with open(path, encoding="utf-8") as f:
        return f.read()


def place(full, kind):
    """The file of some crate's folder (`specs` or `proofs`) that an import leads to, and the name that it takes from
    there."""
    m = re.match(rf"Rattle\.([^.]+)\.{kind}\.(.+)$", full)
    parts = m[2].split(".") if m else []
    for n in range(len(parts), 0, -1):
        path = f"crates/{m[1]}/{kind}/{'/'.join(parts[:n])}.antt"
        if os.path.isfile(path):
            return path, ".".join(parts[n:])
    return None, None


def bound(said):
    """The names that a statement binds itself: its parameters, and what stands after a λ or a `let`."""
    binders = re.findall(r"[({]([^(){}:,]+?) :\s", said) + re.findall(r"λ ([^(){}:,.]+)\.", said)
    binders += re.findall(r"\blet (\S+) (?::[^=]*)?=", said)
    return {n for b in binders for n in b.split()}


def clauses(head):
    """The clauses of a function's head: whether each is a `requires` or an `ensures`, and what it says. Nothing where
    one of them is not read."""
    found = re.findall(r"^\s*(requires|ensures)(?: \w+)? \{ (.*) \}$", head, re.M)
    return found if len(found) == len(re.findall(r"\b(?:requires|ensures)\b", head)) else []


def contracts(text):
    """The lines of a file of code that are no code: clauses and ghost items, but no imports."""
    return "\n".join(re.findall(r"^\s*(?:requires|ensures|invariant|decreases|ghost (?!use\b)).*", text, re.M))


def hidden(name, text):
    """The words of the statement of a theorem that lead to a declaration under proofs/: imported from there, or
    another one of its own file. A name that the statement binds leads nowhere."""
    names, own, found = imports(text), declarations(text), set()
    binds = bound(own[name][0])
    for word in words(own[name][0]):
        if word.split(".")[0] in binds:
            continue
        for w in (word, word.split(".")[0], f"◌{word}◌"):
            if (w in own and w != name) or (w in names and place(names[w], "proofs")[0]):
                found.add(word)
    return found


def definitions_from_proofs(text):
    """The definitions, as opposed to lemmas, that a file takes from under proofs/."""
    found = set()
    for name, full in imports(text).items():
        path, inner = place(full, "proofs")
        if path:
            held = declarations(read(path))
            for word in [inner] if inner else re.findall(re.escape(name) + r"\.([^\s(){},]+)", text):
                if held.get(word.split(".")[-1], (0, False))[1]:
                    found.add(word)
    return found


def fields_of(record, held):
    """The fields of a record that a file declares, as text."""
    fields = re.search(rf"^pub record {re.escape(record)}\b.*?where\n((?:  .*\n?|\n)+)", held, re.M)
    return re.sub(r"--.*", "", fields[1]) if fields else ""


def is_conditional(record, held):
    """Has a record that a file declares an arrow in a field?"""
    return "→" in fields_of(record, held)


def cases(name, held):
    """What a type that a file defines stands for, in each of its cases; nothing where it is a record, or no type."""
    if not re.search(rf"^(?:abbrev|unfoldable) pub {re.escape(name)} : .*Type 0$", held, re.M):
        return []
    return re.findall(rf"^{re.escape(name)}\b.*? = (.*)", held, re.M)


def on_a_case(said):
    """The words of what is said that the toolchain's library has for what holds of one case of a result alone."""
    return set(filter(re.compile(r"(?:If|On|Match)[A-Z]\w*|(?:Reads|Writes)AtMost").fullmatch, words(said)))


def open_functions(text):
    """The name and the head of each open function of a file of code: a `pub fn`, and of a `pub trait` each `fn`, also one
    that has no body or is final."""
    traits = [m.span() for m in re.finditer(r"^pub trait .*?^}", text, re.M | re.S)]
    for m in re.finditer(r'^\s*(pub (?:extern "C" )?|(?:final )?)fn (\w+)(.*?)(?:\{|;)\n', text, re.M | re.S):
        if m[1].startswith("pub ") or any(start < m.start() < end for start, end in traits):
            yield m[2], m[3]


def arguments(said):
    """The words of an application, each of which may be in parentheses."""
    return re.findall(r"\((?:[^()]|\((?:[^()]|\([^()]*\))*\))*\)|[^\s()]+", said)


def is_written(said, names):
    """Is what is said an equation for what came behind what the writer held, or a type of specs/ that is, for some
    values, a record whose first field is one?"""
    held, holds = "(W.contents out.old)", "(W.contents out.new)"
    if said.startswith(f"Appends {held} {holds} "):
        return not re.search("[λ→]", said)
    path, name = place(names.get(said.split(" ")[0], ""), "specs")
    text = read(path) if path else ""
    named = re.search(rf"^{re.escape(name or ' ')} ([^=\n]*) = (?:\(\w+ : [^\n]*?\) × )*(\w+) ([^\n]*)$", text, re.M)
    record = named and re.search(rf"^pub record {named[2]} (.*) : Type 0 where$", text, re.M)
    if not record:
        return False
    given = dict(zip(named[1].split(), arguments(said)[1:]))
    parameters = [n for group in re.findall(r"\(([^()]*?) : ", record[1]) for n in group.split()]
    values = dict(zip(parameters, (given.get(a) for a in arguments(named[3]))))
    first = re.fullmatch(r"pub \w+ : Appends (\w+) (\w+) \([^λ→]*\)", fields_of(named[2], text).strip().split("\n")[0])
    return bool(first) and [values.get(first[1]), values.get(first[2])] == [held, holds]


def is_equation_on_ok(said, value, names):
    """Is what is said of a result with such a value, where it has one, an equation for it; of one that has no value, an
    equation for what was written?"""
    if value == "()":
        return said.startswith("OnOk result (") and said.endswith(")") and is_written(said[len("OnOk result ("):-1], names)
    return bool(re.fullmatch(r"IfOk result \(λ (\w+)\. \1 ≡ [^λ→≡]*\)", said))


def is_equation(said, names, held=""):
    """Is what is said an equation, or a record of specs/ whose first field is one, or a type that is so in each case?"""
    if " ≡ " in said and "→" not in said:
        return not on_a_case(said)
    name = said.split(" ")[0]
    if name in names:
        path, name = place(names[name], "specs")
        if not path:
            return False
        held = read(path)
    first = fields_of(name, held).strip().split("\n")[0]
    if " ≡ " in first and "→" not in first:
        return True
    return bool(cases(name, held)) and all(is_equation(c, {}, held) for c in cases(name, held))


def conditions(ensures, text):
    """What an `ensures` promises under a condition: an arrow of its own, a word for one case of a result, or a record
    of specs/ with an arrow in a field, which it names, or which is named by a type that it names."""
    found = on_a_case(ensures) | ({"→"} if "→" in ensures else set())
    names = imports(text)
    for word in words(ensures):
        path, name = place(names.get(word, ""), "specs")
        held = read(path) if path else ""
        found |= {w for w in {name}.union(*map(words, cases(name, held))) if is_conditional(w, held)} if path else set()
    return found
