#!/usr/bin/env python3
"""Brings this repository's own definitions and lemmas to the spelling of today's Rattle: words in snake case, types and
modules in camel case. Run once at the top of a checkout, after the toolchain's own script; a second run changes nothing.

A name is one that a file of specs/ or a lemma file of proofs/ declares. A camel-case word becomes a snake-case one. A
dash becomes an underscore, unless it joins two definitions (as in length-listed). A type loses its dash. A lemma that
would fall together with a definition gets _lem at its end. Names of src/, strings, inputs and outputs stay.
"""
import collections
import os
import re
import sys

WORD = re.compile(r"[^\s(){}\[\].,;:«»\"`|]+")
HEAD = re.compile(r"^\s*((?:(?:pub|abbrev|unfoldable|opaque|private)\s+)*)([^\s(){}\[\].,;«»\"]+)\s+:\s")
TYPE = re.compile(r"^\s*(?:pub\s+)?(?:record|data)\s+(?:pub\s+)?([^\s(){}\[\].,;«»\"]+)")
USE = re.compile(r"use ([\w.'-]+)\.\{([^}]*)\}", re.S)
GOALS = ("Answers.antt", "Invariants.antt", "Choices.antt", "Proof.antt", "Lib.antt")


def files(root, ends):
    for folder, dirs, names in os.walk(root):
        dirs[:] = sorted(d for d in dirs if d not in ("out", "target", ".git"))
        for n in sorted(names):
            if n.endswith(ends):
                yield os.path.join(folder, n)


def text(p):
    with open(p, encoding="utf-8") as f:
        return f.read()


def snake(n):
    n = re.sub(r"(?<=[a-z0-9])([A-Z])", r"_\1", n)
    return n[0] + n[1:].lower() if n[0].islower() else n


def main():
    root = sys.argv[1] if len(sys.argv) > 1 else "."
    own, defs, fields, kit, seen = set(), set(), set(), set(), set()
    by_file, moved = {}, collections.defaultdict(dict)
    root = os.path.abspath(root)
    for p in files(os.path.join(root, "crates"), (".antt", ".rt")):
        s = text(p)
        by_file[p] = set(WORD.findall(s))
        seen |= by_file[p]
        for m in USE.finditer(s):
            if m.group(1).startswith(("Rattle.std", "borrow", "lib", "native", "mathlib", "Prim")):
                for n in m.group(2).split(","):
                    kit.update(w for w in n.replace(" as ", " ").split())
        if p.endswith(".antt") and os.path.basename(p) not in GOALS:
            inside = False
            for line in s.split("\n"):
                if line.strip() and not line[0].isspace():
                    inside = "record" in line.split()
                if TYPE.match(line):
                    own.add(TYPE.match(line).group(1))
                m = HEAD.match(line)
                if not m:
                    continue
                own.add(m.group(2))
                if inside and line[0].isspace():
                    fields.add(m.group(2))
                if "abbrev" in m.group(1) or "unfoldable" in m.group(1):
                    defs.add(m.group(2))
    known = {snake(n) for n in defs} | kit
    new = {}
    for n in sorted(own, key=lambda n: (n not in defs, "-" in n, n)):
        n0 = n.replace("′", "'")
        if n0[0].isupper():
            to = "".join(w[0].upper() + w[1:] for w in n0.split("-"))
        else:
            parts = [snake(w) for w in n0.split("-") if w]
            joined = len(parts) > 1 and all(w in known for w in parts)
            to = ("-" if joined else "_").join(parts)
        if to == n or n in kit:
            continue
        if n in defs and to in own and to not in defs and to not in kit:
            # A lemma has the name already: where one file has both, the lemma gives way, in its crate.
            for crate in sorted({p.split("/crates/")[1].split("/")[0] for p, words in by_file.items() if n in words and to in words}):
                moved[crate][to] = to + "_lem"
                print(f"respell: in {crate} the lemma {to} gives way to the definition {n}")
        elif to in new.values() or to in own or to in kit:
            to += "_lem"
            print(f"respell: {n} would fall together with another name: {to}")
            if to in new.values() or to in own or to in kit:
                raise SystemExit(f"respell: {n} and another name both become {to}")
        if to in seen:
            print(f"respell: {n} becomes {to}, which stands elsewhere too")
        new[n] = to

    def put(s):
        # Behind a dot stands a field, or a name that the toolchain makes.
        def one(m):
            n, at = m.group(0), m.start()
            behind = at > 0 and s[at - 1] == "." and (at < 2 or not s[at - 2].isspace())
            return new.get(n, n) if n in fields or not behind else n

        return WORD.sub(one, s)

    def put_plain(s):
        # Prose: only words that no sentence has.
        return WORD.sub(lambda m: new[m.group(0)] if m.group(0) in new and re.search("[a-z][A-Z]", m.group(0)) else m.group(0), s)

    def put_code(s, mark):
        out = []
        for line in s.split("\n"):
            at = line.find(mark)
            code, note = (line, "") if at < 0 else (line[:at], line[at:])
            out.append(put(code) + put_plain(note))
        return "\n".join(out)

    lemma = re.compile(r"(?<![.\w])" + WORD.pattern)
    changed = 0
    for p in files(root, (".antt", ".rt", ".edit", ".md")):
        s = text(p)
        crate = p.split("/crates/")[1].split("/")[0] if "/crates/" in p else ""
        if p.endswith(".antt"):
            t = "\n".join(lemma.sub(lambda m: moved[crate].get(m.group(0), m.group(0)), line) if not line.lstrip().startswith("--") else line for line in s.split("\n")) if crate in moved else s
            t = put_code(t, "--")
        elif p.endswith(".rt"):
            t = put_code(s, "//")
        elif p.endswith(".edit"):
            t = put_plain(s)
        elif p.endswith(("PORT.md", "PORTING-LEFT.md")):
            t = s
        else:
            t = re.sub(r"`[^`\n]+`", lambda m: put(m.group(0)), s)
        t = re.sub(r"(Rattle\.\w+\.specs\.)laws\b", r"\1Laws", t) if p.endswith((".antt", ".rt")) else t.replace("specs/laws", "specs/Laws")
        if p.endswith("specs/Lib.antt"):
            t = re.sub(r"^pub mod laws$", "pub mod Laws", t, flags=re.M)
        if t != s:
            changed += 1
            with open(p, "w", encoding="utf-8") as f:
                f.write(t)
    for p in list(files(os.path.join(root, "crates"), (".antt",))):
        q = p.replace("/specs/laws.antt", "/specs/Laws.antt").replace("/specs/laws/", "/specs/Laws/")
        if q != p:
            os.makedirs(os.path.dirname(q), exist_ok=True)
            os.rename(p, q)
    print(f"respell: {len(new)} names, {changed} files")
    with open("/tmp/respell-names.txt", "w", encoding="utf-8") as f:
        f.writelines(f"{a} {b}\n" for a, b in sorted(new.items()))


if __name__ == "__main__":
    main()
