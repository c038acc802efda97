#!/usr/bin/env python3
"""Spells the repository's own names of definitions, lemmas, fields and locals in snake case, and lays the crates out (rt fmt).

usage: tools/respell.py [--check] [TOP]     once, at the top of the repository, right after the kit's port.py

What is turned: a name that begins with a small letter and is in camelCase or kebab-case, where the repository's own .antt files declare it
(top level, record fields, constructors, `where` functions) or where it is a local of an own lemma file (binders).
Where: each crates/*/specs and crates/*/proofs file, the clauses and `ghost use` lines of .rt files, must-fail/*.edit, and
names in backticks (camelCase ones anywhere) of comments, docs/*.md and README.md.
What stays: names that a file imports from a library (Prim, mathlib, native, lib, borrow, .., Rattle.std), paths of modules, types,
Rust's own names, strings, comments' plain English, and in proofs/F/Proof.antt each name that nothing of ours declares (an old build made it).
A lemma (kebab-case, or snake case since port.py) that would fall together with a word (camelCase) of the repository gets `_holds` behind it,
or what EXCEPTIONS says. A second run changes nothing. `left:` lines are what to look at.
--check writes nothing. Python 3.8 or later, standard library only, and the kit's rt.
"""

import collections
import os
import re
import subprocess
import sys

# name as it stands after port.py -> new name, where the rule gives a wrong or a doubled one
EXCEPTIONS = {
}
# (file below crates/, name) -> new name: locals of one file
LOCAL = {
    ("guarantees/proofs/Recovery.antt", "is_up"): "store_is_up",
}
RESERVED = {"record", "ruleset", "data", "open", "ground", "assumption", "module", "where", "use", "mod", "pub", "package", "as", "unfoldable", "abbrev", "axiom", "unfold", "unfolding", "mutual", "infix", "infixl", "infixr", "elim", "let", "in", "do", "coe", "hcom", "com", "deriving"}

NAME = r'[^\s(){}.;,@"«»]+'
TOKEN = re.compile(r'"(?:\\.|[^"\\\n])*"|«[^»]*»|' + NAME)
BLOCK = re.compile(r"\{-.*?-\}", re.S)
DECL = re.compile(r"(?m)^ *(?:(?:pub|abbrev|unfoldable|pattern) )*(" + NAME + r"(?: " + NAME + r")*)(?: \{[^{}\n]*\})* :(?=\s)")
USE = re.compile(r"(?m)^[ \t]*(?:pub )?use ([^\s{;]+?)(?:\.\{([^}]*)\})?(?: as (\S+))?[ \t]*$")
GHOST_USE = re.compile(r"ghost use ([^\s{;]+?)(?:\.\{([^}]*)\})?(?: as (\S+))?;", re.S)
LIBRARY = re.compile(r"(?:Prim|mathlib|native|lib|borrow|denote|contract|mir|types|sound|seplogic|prog|base)\b|Rattle\.(?:std|core|std_alloc|std_collections|std_heap|std_io|libc|io|os)\b")
MADE = re.compile(r"/proofs/(?:.*/)?[^/]*/Proof\.antt$")


def is_other(name):
    """camelCase or kebab-case, and of plain letters."""
    if not re.fullmatch(r"[a-z][A-Za-z0-9_'′≤<≡≢+-]*", name):
        return False
    return bool(re.search(r"[a-z0-9][A-Z]", name) or re.search(r"[A-Za-z0-9_']-[A-Za-z0-9]", name) or "′" in name)


def is_camel(name):
    return "-" not in name and bool(re.search(r"[a-z0-9][A-Z]", name))


def snake(name):
    name = re.sub(r"(?<=[a-z0-9])[A-Z]", lambda m: "_" + m[0].lower(), name)
    return name.replace("-", "_").replace("′", "'")


def read(path):
    with open(path, encoding="utf-8", newline="") as f:
        return f.read()


def parts(text, comment):
    """Yields (is code, text): comments (`--` or `//`, and {- -}) apart from code. Strings are code here."""
    at, start, n = 0, 0, len(text)
    while at < n:
        c = text[at]
        if c == '"':
            m = re.compile(r'"(?:\\.|[^"\\])*"' if comment == "//" else r'"(?:\\.|[^"\\\n])*"').match(text, at)
            at = m.end() if m else at + 1
        elif text.startswith(comment, at) and (comment == "//" or at == 0 or text[at - 1] in ' \t\n(){}.;,"'):
            end = text.find("\n", at)
            end = n if end < 0 else end
            if start < at:
                yield True, text[start:at]
            yield False, text[at:end]
            at = start = end
        elif comment == "--" and text.startswith("{-", at):
            end = text.find("-}", at)
            end = n if end < 0 else end + 2
            if start < at:
                yield True, text[start:at]
            yield False, text[at:end]
            at = start = end
        else:
            at += 1
    if start < n:
        yield True, text[start:]


def code_of(text, comment):
    return "".join(t if code else " " for code, t in parts(text, comment))


def items(found):
    path, names, alias = found
    out = []
    for it in (names or "").split(","):
        out += [re.split(r"\s+as\s+", it.strip())[-1]] if it.strip() else []
    return path, out, alias


class Names:
    def __init__(self, top):
        self.top, self.said, self.declared = top, [], collections.defaultdict(set)
        self.antt, self.rt, self.edits, self.pages = [], [], [], []
        for d, ds, fs in os.walk(os.path.join(top, "crates")):
            ds[:] = sorted(x for x in ds if x != "out")
            for f in sorted(fs):
                p = os.path.join(d, f)
                (self.antt if f.endswith(".antt") else self.rt if f.endswith(".rt") else self.edits if f.endswith(".edit") else []).append(p)
        self.pages = [os.path.join(top, "README.md")]
        for d, ds, fs in os.walk(os.path.join(top, "docs")):
            self.pages += [os.path.join(d, f) for f in sorted(fs) if f.endswith(".md")]
        for p in self.antt:
            code = code_of(read(p), "--")
            for m in DECL.finditer(code):
                for n in m[1].split():
                    if re.match(r"[a-z]", n) and m[1].split()[0] not in ("let", "record", "data"):
                        self.declared[n].add(p)
        groups = collections.defaultdict(set)
        for n in self.declared:
            if not all(MADE.search(p) for p in self.declared[n]):
                groups[snake(n) if is_other(n) else n].add(n)
        self.map = {}
        for s, names in groups.items():
            camel = [n for n in names if is_camel(n)]
            for n in sorted(names):
                new = s if len(names) == 1 or camel == [n] else s if not camel and is_other(n) and s not in names else s + "_holds"
                if n == s and (not camel):
                    new = s
                new = EXCEPTIONS.get(n, new)
                if new != n:
                    self.map[n] = new
        for n in sorted(self.declared):
            if n in RESERVED - {"let"} or self.map.get(n) in RESERVED:
                self.say(f"{n}: a reserved word, declared in {sorted(self.declared[n])[0]}")

    def say(self, text):
        if text not in self.said:
            self.said.append(text)

    def short(self, p):
        return os.path.relpath(p, os.path.join(self.top, "crates"))

    def turned_antt(self, p, text):
        code = code_of(text, "--")
        lib, here = set(), set()
        for m in USE.finditer(code):
            path, names, alias = items(m.groups())
            if LIBRARY.match(path):
                lib.update(names or [alias or path.split(".")[-1]])
        for m in DECL.finditer(code):
            here.update(m[1].split())
        made = bool(MADE.search(p))
        out, fell = [], collections.defaultdict(set)

        def one(code, path_of_library):
            def new(m):
                t = m[0]
                if t[0] in '"«':
                    return t
                behind = m.start() > 0 and code[m.start() - 1] == "."
                to = LOCAL.get((self.short(p), t)) if t in here else None
                if to is None:
                    if path_of_library or (t in lib and not behind and t not in here):
                        to = t
                    elif behind and (t not in self.map or re.search(NAME + r"$", code[: m.start() - 1] or " ") and re.search(NAME + r"$", code[: m.start() - 1])[0] in lib):
                        # a library's, as Memᴰ.not-nil
                        to = t
                    elif t in self.map and (is_other(t) or not behind):
                        to = self.map[t]
                    elif is_other(t) and (not made or t in here):
                        to = EXCEPTIONS.get(t, snake(t))
                    else:
                        to = t
                if not behind:
                    fell[to].add(t)
                return to

            return TOKEN.sub(new, code)

        for is_code, t in parts(text, "--"):
            if not is_code:
                out.append(self.comment(t))
                continue
            at = 0
            for m in USE.finditer(t):
                out.append(one(t[at : m.start()], False))
                path, names, alias = m.groups()
                if LIBRARY.match(path):
                    out.append(m[0])
                else:
                    head = m[0][: m[0].index(path) + len(path)]
                    out.append(head + one(m[0][len(head) :], False))
                at = m.end()
            out.append(one(t[at:], False))
        for to, olds in fell.items():
            if len(olds) > 1:
                self.say(f"{self.short(p)}: {', '.join(sorted(olds))} are all {to} now")
        for n in sorted(here & lib):
            if is_other(n):
                self.say(f"{self.short(p)}: {n} is declared here and imported from a library")
        return "".join(out)

    def in_ticks(self, t):
        def word(m):
            n = m[0]
            if n in self.map or not is_other(n):
                return self.map.get(n, n) if is_other(n) else n
            # a name that port.py turned in the files, and in no page; only in the first run
            return self.map.get(snake(n), snake(n)) if len(self.map) > 99 and snake(n) in self.declared else n

        return re.sub(r"`[^`\n]*`", lambda m: TOKEN.sub(word, m[0][1:-1]).join("``") if not re.search(r"[/]|\.(rt|antt|md|py|sh)\b", m[0]) else m[0], t)

    def comment(self, t):
        t = self.in_ticks(t)
        return re.sub(r"(?<![\w.'/-])[a-z][a-z0-9]*[A-Z]\w*(?![\w/-])", lambda m: self.map.get(m[0], m[0]), t)

    def turned_rt(self, p, text):
        code = code_of(text, "//")
        own = set()
        for m in GHOST_USE.finditer(code):
            path, names, alias = items(m.groups())
            if not LIBRARY.match(path):
                own.update(names)
        rust = re.sub(r"ghost use [^;]*;", " ", code)
        lent = set(re.findall(r"\b(?:let (?:mut )?|for )(\w+)", rust)) | set(re.findall(r"[(,]\s*(?:mut )?(\w+): ", rust))
        out = []
        fell = collections.defaultdict(set)

        def new(m):
            t = m[0]
            if t[0] in '"«':
                return t
            behind = m.start() > 0 and code_now[m.start() - 1] == "."
            to = t
            if t in self.map and (t in own and not behind or is_other(t)):
                to = self.map[t]
            elif is_camel(t) and is_other(t):
                # an alias, as `use M.{exchanged as exchangedOf}`
                to = snake(t)
            if not behind:
                fell[to].add(t)
            return to

        for is_code, t in parts(text, "//"):
            if is_code:
                code_now = t
                out.append(TOKEN.sub(new, t))
            else:
                out.append(self.comment(t))
        for to, olds in fell.items():
            if len(olds) > 1 and to in lent:
                self.say(f"{self.short(p)}: {', '.join(sorted(olds))} are all {to} now, and that is a local of Rust")
        return "".join(out)

    def turned_edit(self, p, text):
        def word(m):
            t = m[0]
            return self.map.get(t, t) if t[0] not in '"«' and is_other(t) else t

        return "\n".join(TOKEN.sub(word, l) if re.match(r"(old|new|at): ", l) else l for l in text.split("\n"))


def main(argv):
    check = "--check" in argv
    argv = [a for a in argv if a != "--check"]
    top = os.path.abspath(argv[0] if argv else ".")
    it = Names(top)
    n = 0
    for kind, turn in ((it.antt, it.turned_antt), (it.rt, it.turned_rt), (it.edits, it.turned_edit), (it.pages, lambda p, t: it.in_ticks(t))):
        for p in kind:
            text = read(p)
            new = turn(p, text)
            if new != text:
                n += 1
                if not check:
                    with open(p, "w", encoding="utf-8", newline="") as f:
                        f.write(new)
    # Names of another length break lines elsewhere.
    if not check:
        crates = os.path.join(top, "crates")
        for name in sorted(os.listdir(crates)):
            subprocess.run(["rt", "fmt"], cwd=os.path.join(crates, name), check=True, stdout=subprocess.DEVNULL)
    for l in it.said:
        print("left: " + l)
    print(f"respell: {len(it.map)} names, {n} files {'to change' if check else 'changed'}, {len(it.said)} to look at")
    holds = sorted((a, b) for a, b in it.map.items() if b != snake(a))
    print("respell: not by the plain rule: " + ", ".join(f"{a} -> {b}" for a, b in holds))


if __name__ == "__main__":
    main(sys.argv[1:])
