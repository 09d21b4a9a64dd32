#!/usr/bin/env python3
"""Respells the repository's own names after the kit's port.py: words in snake case, with no dash in a name that a file of specs/ or a lemma file declares.

usage: tools/respell.py        at the top of the repository, once, after port.py

It changes specs/, proofs/, the clauses of src/ and the names between backticks of the pages. In must-fail/ it also writes a projection tight and the operators
as today's Rattle writes them. Names of functions, of what Rattle makes for a function's proof, and of the library stay.
"""

import collections
import os
import re
import sys

# What an identifier of antt may hold, for the names in question: letters, digits, dashes between them, primes and a raised d.
WORD = re.compile(r"(?<![\w'\-ᵈ◌?])[A-Za-zμκ](?:[\w'ᵈ?]|-(?=\w))*(?![\w'◌\-?])")

# Own names that would fall together with the library's.
NEW = {"bit-or": "bit_of_or", "bit-and": "bit_of_and", "bit-xor": "bit_of_xor"}
DECLARED = re.compile(r"^\s*(?:abbrev |unfoldable |axiom )?(?:pub )?(?:mutual )?([^\s:(){}]+)(?: [({].*)? :(?: |$)")
USE = re.compile(r"^(?:ghost )?use ([^;{]*?)(?:\.?\{(.*?)\})?(?: as ([^\s;]+))?;?\s*$", re.S)


def files(root, *ends):
    for folder, dirs, names in os.walk(root):
        dirs[:] = sorted(d for d in dirs if d not in ("out", ".git", "target"))
        for n in sorted(names):
            if n.endswith(ends):
                yield os.path.join(folder, n)


def of_function(path):
    folder, name = os.path.split(path)
    return name in ("Proof.antt", "Answers.antt", "Invariants.antt") and os.path.basename(folder) != "proofs"


def read(path):
    with open(path, encoding="utf-8") as f:
        return f.read()


def uses(text):
    """The `use` lines of a file, whole: (start, end, path, names)."""
    for m in re.finditer(r"^(?:ghost )?use [^{;\n]*(?:\{[^}]*\})?[^\n]*$", text, re.M):
        u = USE.match(m.group(0))
        if u:
            yield m, u.group(1), u.group(2) or ""


def from_outside(text):
    """Names that a file takes from the library."""
    out = set()
    for _, path, names in uses(text):
        if not re.match(r"Rattle\.(?!std\b|core\b|libc\b|io\b|os\b|check\b)", path):
            for n in names.split(","):
                out.update(w for w in n.split() if w != "as")
            out.update(path.split("."))
    return out


def dashed(name):
    return WORD.fullmatch(name) and "-" in name


def snake(name):
    return NEW.get(name, name.replace("-", "_"))


def declared(crates):
    """Own names with a dash: of specs/ and of lemma files, and the new names that `as` gives there and in src/."""
    found = set()
    for p in files(crates, ".antt", ".rt"):
        text = read(p)
        if p.endswith(".antt") and not of_function(p):
            for line in text.split("\n"):
                m = DECLARED.match(line)
                if m and dashed(m.group(1)):
                    found.add(m.group(1))
        if not of_function(p):
            for _, _, names in uses(text):
                for n in names.split(","):
                    w = n.split()
                    if len(w) == 3 and dashed(w[2]):
                        found.add(w[2])
    return found


def turned_already(crates):
    """The names, with dashes as they were, that port.py wrote in snake case: edits and pages still have the dashes."""
    out = set()
    for p in files(crates, ".antt"):
        if not of_function(p):
            for line in read(p).split("\n"):
                m = DECLARED.match(line)
                if m and "_" in m.group(1):
                    out.add(m.group(1).replace("_", "-"))
    return out


def antt(text, own, everything):
    """Turns the words of a file of antt; comments only between backticks."""
    outside = from_outside(text)

    def word(m):
        w = m.group(0)
        # what stands behind a dot is a field or a member of a path
        behind = m.start() > 0 and m.string[m.start() - 1] == "."
        if "-" not in w or w in outside:
            return w
        if w in own or (everything and not behind):
            return snake(w)
        return w

    out = []
    for line in text.split("\n"):
        code, dash, said = line, "", ""
        m = re.search(r"(?:^|\s)--(?:\s|$)", line)
        if m:
            code, said = line[: m.start()], line[m.start() :]
        said = re.sub(r"`[^`]*`", lambda t: WORD.sub(lambda x: snake(x.group(0)) if x.group(0) in own else x.group(0), t.group(0)), said)
        out.append(WORD.sub(word, code) + said)
    return "\n".join(out)


def rust(text, own):
    out = []
    for line in text.split("\n"):
        code, said = line, ""
        m = re.search(r"(?:^|\s)//", line)
        if m:
            code, said = line[: m.start()], line[m.start() :]
        if '"' not in code:
            code = WORD.sub(lambda m: snake(m.group(0)) if m.group(0) in own else m.group(0), code)
        said = re.sub(r"`[^`]*`", lambda t: WORD.sub(lambda x: snake(x.group(0)) if x.group(0) in own else x.group(0), t.group(0)), said)
        out.append(code + said)
    return "\n".join(out)


def edit(text, own):
    definition = re.search(r"(?m)^file: specs/", text)
    out = []
    for line in text.split("\n"):
        if re.match(r"(old|new): ", line):
            line = line[:5] + WORD.sub(lambda m: snake(m.group(0)) if m.group(0) in own else m.group(0), line[5:])
            if definition:
                line = re.sub(r"([\w')]) \.(?=[a-z0-9])", r"\1.", line)
                line = re.sub(r"\((\w+(?:\.\w+)+)\)", r"\1", line)
        out.append(line)
    return "\n".join(out)


def page(text, own):
    return re.sub(r"`[^`\n]*`", lambda t: WORD.sub(lambda x: snake(x.group(0)) if x.group(0) in own else x.group(0), t.group(0)), text)


def main():
    crates = "crates"
    own = declared(crates)
    all_own = own | turned_already(crates)
    met = collections.Counter()
    for p in files(".", ".antt", ".rt", ".edit", ".md"):
        before = read(p)
        if p.endswith(".antt"):
            after = antt(before, own, not of_function(p))
            old = set(WORD.findall(before))
            for w in old:
                if "-" in w and snake(w) in old and snake(w) in WORD.findall(after) and w not in WORD.findall(after):
                    print(f"together: {p}: {w} and {snake(w)}")
        elif p.endswith(".rt"):
            after = rust(before, own)
        elif p.endswith(".edit"):
            after = edit(before, all_own)
        elif not p.startswith("./docs/0"):
            after = page(before, all_own)
        else:
            continue
        if after != before:
            met[p.rsplit(".", 1)[1]] += 1
            with open(p, "w", encoding="utf-8") as f:
                f.write(after)
    print(f"{len(own)} names; files: " + ", ".join(f"{n} {k}" for k, n in sorted(met.items())))


if __name__ == "__main__":
    sys.exit(main())
