#!/usr/bin/env python3
"""Spells this repository's own names as Rattle spells names: facts in camel case, all else in snake case.

usage: python3 tools/respell.py [--check] [--docs] [--no-comments] [--table FILE] ROOT

The table is tools/names.tsv: old name, new name, kind, where it is declared. What turns, whole words alone (a word ends
at a blank, a bracket, a dot, a comma, a semicolon or a quote):

  crates/*/specs, crates/*/proofs   *.antt: the code, and a comment's word only where the file's code has it
  crates/*/src                      *.rt: `ghost use` items, requires and ensures, ghost fields and members; nothing else
  crates/*/must-fail                *.edit: the texts of `old:` and `new:`
  --docs                            README.md, docs/*.md: words in code spans and fenced blocks alone

A name whose kind begins with 'local' does not turn behind a dot, where Rattle makes names of its own such as c.v-is.
A word that a file imports from a library stays in that file, and is printed as 'left:'. Nothing is written where two
words of a file would become one, or a new word stands in the file already: 'clash:'. Strings, Rust code, stored output
and data files are never touched. A second run changes nothing.
"""
import collections, os, re, sys

NAME = r'[^\s(){}.;,@"«»]+'
WORD = re.compile(NAME)
QUIET = re.compile(r'"(?:[^"\\\n]|\\.)*"|(?<![^\s(){}.;,@"«»])--[^\n]*|\{-.*?-\}', re.S)
USE = re.compile(r"^[ \t]*(?:pub )?use ([^\s;{]+)(\{[^}]*\})?(?: as ([^\s;]+))?", re.M)
GUSE = re.compile(r"ghost\s+use\b([^;]*);")
RS_QUIET = re.compile(r'//[^\n]*|"(?:\\.|[^"\\])*"')
CLAUSE = re.compile(r"(?:\b(?:requires|ensures)\s*\*?\s*(?:\w+\s*)?\{|\bghost\s*(?:\w+\s*(?::\s*(?:(?:owns|lends)\s*)?|=\s*))?\{|\bghost\s+\w+\s*:\s*\{)")


def args():
    a = sys.argv[1:]
    o = {"check": "--check" in a, "comments": "--no-comments" not in a, "docs": "--docs" in a}
    t = os.path.join(os.path.dirname(os.path.realpath(__file__)), "names.tsv")
    if "--table" in a:
        i = a.index("--table"); t = a[i + 1]; del a[i:i + 2]
    a = [x for x in a if not x.startswith("--")]
    return a[0], t, o


def load(path):
    table, local = {}, set()
    for line in open(path, encoding="utf-8"):
        if line.strip() and not line.startswith("#"):
            f = line.rstrip("\n").split("\t")
            if f[0] in table and table[f[0]] != f[1]:
                sys.exit(f"respell: two rows for {f[0]}")
            table[f[0]] = f[1]
            if len(f) > 2 and f[2].startswith("local"):
                local.add(f[0])
    chained = [o for o, n in table.items() if n in table]
    if chained:
        sys.exit(f"respell: a new name is an old one too: {chained}")
    return table, local


def spans(text, quiet):
    """The pieces of a text: (is quiet, piece)."""
    at = 0
    for m in quiet.finditer(text):
        yield False, text[at:m.start()]
        yield True, m[0]
        at = m.end()
    yield False, text[at:]


class Turner:
    def __init__(self, table, local, crates, opts):
        self.table, self.local, self.crates, self.opts = table, local, crates, opts
        self.count, self.said, self.clash = collections.Counter(), [], []

    def word(self, text, stay, only=None, kind="code"):
        def one(m):
            w = m[0]
            if w not in self.table or w in stay or (only is not None and w not in only):
                return w
            if w in self.local and text[m.start() - 1:m.start()] == ".":
                return w
            self.count[kind] += 1
            return self.table[w]
        return WORD.sub(one, text)

    def library(self, code):
        stay = set()
        for path, items, alias in USE.findall(code):
            s = path.strip(".").split(".")
            if len(s) > 1 and s[0] == "Rattle" and s[1] in self.crates:
                continue
            stay.update(WORD.findall(items or ""))
        return stay

    def comment(self, text, stay, has):
        """A comment's words; a word ends at ` and : too."""
        def one(m):
            w = m[0]
            if w in self.table and w in has and w not in stay and w not in self.local:
                self.count["comments"] += 1
                return self.table[w]
            return w
        return re.sub(r"[^\s(){}.;,@\"«»`:'’]+'*", one, text)

    def clashes(self, where, code, stay):
        # a step of a path, as Rattle.c.proofs.whole_nodes.Goals, is no rival
        bare = re.sub(rf"\b(?:Rattle|package)(?:\.{NAME})+", lambda m: " " * len(m[0]), code)
        words = set(WORD.findall(bare))
        alone = {m[0] for m in WORD.finditer(bare) if bare[m.start() - 1:m.start()] != "."}  # a field behind a dot is no rival
        new = collections.defaultdict(set)
        for w in words & set(self.table) - stay:
            new[self.table[w]].add(w)
        for n, olds in new.items():
            if len(olds) > 1 or n in alone:
                self.clash.append(f"clash: {where}: {', '.join(sorted(olds))} -> {n}" + (" (stands there)" if n in alone else ""))

    def antt(self, text, where):
        code = QUIET.sub(lambda m: re.sub(r"[^\n]", " ", m[0]), text)
        stay = self.library(code)
        for w in sorted(stay & set(self.table)):
            self.said.append(f"left: {where}: {w} is a library's there")
        self.clashes(where, code, stay)
        has, out = set(WORD.findall(code)), []
        for quiet, piece in spans(text, QUIET):
            if not quiet:
                out.append(self.word(piece, stay))
            elif piece.startswith('"') or not self.opts["comments"]:
                out.append(piece)
            else:
                out.append(self.comment(piece, stay, has))
        return "".join(out)

    def rt(self, text, where):
        code = RS_QUIET.sub(lambda m: re.sub(r"[^\n]", " ", m[0]), text)
        parts = []
        for m in GUSE.finditer(code):
            s = m[1].strip().split(".")
            if len(s) > 1 and s[0] == "Rattle" and s[1] in self.crates:
                parts.append(m.span(1))
        for m in CLAUSE.finditer(code):
            depth, i = 1, m.end()
            while depth and i < len(code):
                depth += {"{": 1, "}": -1}.get(code[i], 0); i += 1
            parts.append((m.end(), i - 1))
        out, at = [], 0
        for a, b in sorted(parts):
            if a < at:
                continue
            out.append(text[at:a]); out.append(self.ghost(text[a:b])); at = b
        out.append(text[at:])
        rest = RS_QUIET.sub(" ", "".join(out))
        for w in sorted(set(WORD.findall(rest)) & set(self.table)):
            self.said.append(f"look: {where}: {w} stands outside clauses and stays")
        return "".join(out)

    def ghost(self, piece):
        return "".join(p if q else self.word(p, ()) for q, p in spans(piece, RS_QUIET))

    def edit(self, text, where):
        out, file = [], ""
        for line in text.split("\n"):
            if line.startswith("file:"):
                file = line[5:].strip()
            new = line if line.startswith("file:") else self.word(line, (), None, "edits")
            if new != line and file.endswith(".rt"):
                self.said.append(f"look: {where}: {new.strip()[:100]}")
            out.append(new)
        return "\n".join(out)

    def md(self, text, where):
        return re.sub(r"```.*?```|`[^`\n]+`", lambda m: re.sub(r"[^\s(){}.;,@\"«»`]+", lambda w: self.table.get(w[0], w[0]), m[0]), text, flags=re.S)


def main():
    root, table, opts = args()
    table, local = load(table)
    inside = os.path.join(root, "crates")
    crates = {c for c in os.listdir(inside) if os.path.isdir(os.path.join(inside, c))}
    t, changed = Turner(table, local, crates, opts), []
    todo = []
    for folder, dirs, files in os.walk(inside):
        dirs[:] = sorted(d for d in dirs if d not in ("out", "target", ".git"))
        for f in sorted(files):
            p = os.path.join(folder, f)
            steps = os.path.relpath(p, inside).split(os.sep)
            if len(steps) < 3:
                continue
            how = {("specs", ".antt"): t.antt, ("proofs", ".antt"): t.antt, ("src", ".rt"): t.rt, ("must-fail", ".edit"): t.edit}.get((steps[1], os.path.splitext(f)[1]))
            if how:
                todo.append((p, how))
    if opts["docs"]:
        docs = [os.path.join(root, "README.md")] + sorted(os.path.join(root, "docs", f) for f in os.listdir(os.path.join(root, "docs")))
        todo += [(p, t.md) for p in docs if p.endswith(".md")]
    for p, how in todo:
        with open(p, encoding="utf-8", newline="") as f:
            old = f.read()
        new = how(old, os.path.relpath(p, root))
        if new != old:
            changed.append((p, new))
    print("\n".join(t.said + t.clash))
    if t.clash:
        print("respell: clashes, nothing written"); return 1
    if not opts["check"]:
        for p, new in changed:
            with open(p, "w", encoding="utf-8", newline="") as f:
                f.write(new)
    print(f"respell: {len(changed)} files, words: {dict(t.count)}")
    return 0


sys.exit(main())
