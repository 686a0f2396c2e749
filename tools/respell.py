#!/usr/bin/env python3
"""Brings the repository's own names of the theory to today's spelling: `coarsestOf` -> `coarsest_of`, `up-le` -> `up_le`, `All-at` -> `All_at`.

  respell.py            rewrites the files in place, once, at the top of the repository; a second run changes nothing
  respell.py --table    prints old -> new and changes nothing
  respell.py --dry      changes nothing, and prints what it would

Own names are those that crates/*/specs/**.antt and crates/*/proofs/**.antt declare or bind. Names of libraries and generated names stay.
"""
import collections
import os
import re
import sys

ROOT = os.getcwd()

# New names by hand, old -> new: the rule's name is taken.
SPECIAL = {
    # a tactic of antt has that name
    "first_of": "first_failing",
    # two definitions: of nls/proofs/Arrays, beside `bits_of` of bits/specs/Bits
    "bits-of": "bits_of_arr",
    # lemmas of nls/proofs/Machine/Cover, beside locals `is-d`, `is-g` and `isD`, `isG` of those that cite them
    "is-D": "is_desc_at",
    "is-G": "is_grand_at",
    # a lemma beside the library's function of that name
    "bit-or": "bit_or_lem",
    "in-float": "in_float_lem",
    # a lemma beside the definition that it is about, whose name had a hump
    "bars-zero": "bars_zero_lem",
    "block-from": "block_from_lem",
    "body-bits": "body_bits_lem",
    "desc-stands": "desc_stands_lem",
    "figures-checks": "figures_checks_lem",
    "found-four": "found_four_lem",
    "grand-stands": "grand_stands_lem",
    "in-desc": "in_desc_lem",
    "in-grand": "in_grand_lem",
    "is-end": "is_end_lem",
    "own-steps": "own_steps_lem",
    "own-tables": "own_tables_lem",
    "parsed-entry": "parsed_entry_lem",
    "planes-of": "planes_of_lem",
    "precision-at": "precision_at_lem",
    "precision-of": "precision_of_lem",
    "push-most": "push_most_lem",
    "refined-word": "refined_word_lem",
    "refining-seen": "refining_seen_lem",
    "sample-linear": "sample_linear_lem",
    "sample-raster": "sample_raster_lem",
    "sum-to": "sum_to_lem",
    "told-sets": "told_sets_lem",
    "which-are": "which_are_lem",
    "with-word": "with_word_lem",
}

# In one file another new name than elsewhere.
SPECIAL_IN = {
    # constructors of `Seen`, where `inDesc` and `inGrand` are not seen
    ("crates/nls/proofs/Precision/Seen.antt", "in-desc"): "in_desc",
    ("crates/nls/proofs/Precision/Seen.antt", "in-grand"): "in_grand",
    ("crates/nls/proofs/Precision/Turns.antt", "in-desc"): "in_desc",
    ("crates/nls/proofs/Precision/Turns.antt", "in-grand"): "in_grand",
}

# Lemmas that the kit's script has respelled already, beside the definition that they are about: name -> (that definition's old name, new name).
# Only as long as the definition has its old name.
KIT = {
    "over_by": ("overBy", "over_by_lem"),
    "told_at": ("toldAt", "told_at_lem"),
    "is_within": ("isWithin", "is_within_lem"),
    "table_fits": ("tableFits", "table_fits_lem"),
}

# In the pages and the must-fail edits, which the kit's script left as they were.
PAGES = {
    "firstOf": "first_failing",
    "over-by": "over_by_lem",
    "told-at": "told_at_lem",
    "is-within": "is_within_lem",
    "table-fits": "table_fits_lem",
}

# An alias of the kit's script for a function's module, beside a definition whose name had a hump: file, alias -> (that definition's old name, new alias).
ALIASES = {
    ("crates/txp/proofs/Decided.antt", "header_of"): ("headerOf", "header_of_fn"),
}

# Words of antt that no definition may have as its name.
RESERVED = set(
    "data record deriving module where use mod pub package open as unfoldable abbrev axiom unfold unfolding ruleset mutual infix infixl infixr "
    "elim let in do Type coe fcoe tcoe hcom com search grind omega cc rw simp assumption ground hlevel first_of".split())

CHARS = r"A-Za-z0-9_'′\-₀-₉²³α-ωΑ-Ωℕℤ"
WORD = re.compile("[" + CHARS + "]+")
RUN = re.compile(r"[^\s(){}\[\],;.\"`]+")          # what stands between separators; a name only if all of it is CHARS


LAST = re.compile("([" + CHARS + r"]+)\.$")


def is_name(run):
    return WORD.fullmatch(run) and (run[0].isalpha() or run[0] == "_")


def old_spelling(name):
    """A dash inside, or a hump after a lower-case first letter."""
    if "-" in name.strip("-"):
        return True
    return name[0].islower() and any(c.isupper() for c in name if c.isascii())


def plain(name):
    """The rule's new name."""
    if not old_spelling(name):
        return name
    if not name[0].isascii() or name[0].isupper():
        return name.replace("-", "_").replace("′", "'")
    s = re.sub(r"(?<=[a-z0-9'₀-₉])(?=[A-Z])", "_", name.replace("-", "_"))
    s = re.sub(r"(?<=[A-Z])(?=[A-Z][a-z])", "_", s)
    return s.lower().replace("′", "'")


def snake(name):
    return SPECIAL.get(name) or plain(name)


def read(path):
    with open(path, encoding="utf-8") as f:
        return f.read()


def walk(*ends):
    for folder, dirs, files in os.walk(os.path.join(ROOT, "crates")):
        dirs[:] = sorted(d for d in dirs if d not in ("out", ".git"))
        for f in sorted(files):
            if f.endswith(ends):
                yield os.path.relpath(os.path.join(folder, f), ROOT)


CRATES = sorted(os.listdir(os.path.join(ROOT, "crates")))


# ---- the parts of a file of the theory

def parts(text):
    """(kind, piece) of an antt text: 'note', 'text' (a string), 'use', 'code'."""
    out = []
    at = 0
    pattern = re.compile(r'(?P<note>(?:^|(?<=\s))--(?=\s|$|-).*$)|(?P<text>"(?:[^"\\\n]|\\.)*")|(?P<use>^[ ]*(?:pub )?use [^\n{]*(?:\{[^}]*\})?[^\n]*$)', re.M)
    for m in pattern.finditer(text):
        if m.start() > at:
            out.append(("code", text[at:m.start()]))
        out.append((m.lastgroup, m[0]))
        at = m.end()
    out.append(("code", text[at:]))
    return out


def own_file(path):
    """The own file that a module path begins with, and what is left of the path."""
    p = path.split(".")
    if len(p) > 3 and p[0] == "Rattle" and p[1] in CRATES and p[2] in ("specs", "proofs"):
        for n in range(len(p), 3, -1):
            f = os.path.join("crates", *p[1:n]) + ".antt"
            if os.path.exists(os.path.join(ROOT, f)):
                return f, p[n:]
    return None, p


def imports(piece):
    """(path, alias) of each name that a `use` brings."""
    m = re.match(r"\s*(?:ghost |pub )*use ([^\s{;]*?)\.?\s*(?:\{([^}]*)\})?\s*(?:as ([^\s;]+))?\s*;?\s*$", piece)
    if not m:
        return None
    if m[2] is None:
        return [(m[1], m[3], None)]
    out = []
    for item in re.split(r",", m[2]):
        item = item.strip()
        if not item:
            continue
        a = item.split(" as ")
        out.append((m[1] + "." + a[0].strip(), a[1].strip() if len(a) > 1 else None, item))
    return out


HEAD = r"(?:(?:abbrev|unfoldable|axiom|pub)[ ]+)*"


def declared(code):
    """Names that a signature, a record or a data type declares, with the kind: 'field', 'data' or 'name'."""
    out = {}
    stack = []
    for line in code.split("\n"):
        if not line.strip():
            continue
        indent = len(line) - len(line.lstrip())
        while stack and indent <= stack[-1][0]:
            stack.pop()
        m = re.match(r"\s*" + HEAD + r"(record|data)[ ]+(\S+)", line)
        if m:
            out.setdefault(m[2], set()).add("type")
            stack.append((indent, m[1]))
            continue
        m = re.match(r"\s*" + HEAD + r"((?:[^\s(){}\[\],;.\"=λ→|]+[ ]+)+):(?:\s|$)", line)
        if m and not re.match(r"\s*(let|module|open|unfolding|use)\b", line):
            kind = stack[-1][1] if stack else "name"
            kind = {"record": "field", "data": "case"}.get(kind, "name")
            for w in m[1].split():
                if is_name(w):
                    out.setdefault(w, set()).add(kind)
    return out


class Theory:
    """One file of the theory, and which of its words are its own."""

    def __init__(self, path):
        self.path = path
        self.text = read(os.path.join(ROOT, path))
        self.parts = parts(self.text)
        code = "".join(p if k == "code" else re.sub(r"[^\n]", " ", p) for k, p in self.parts)
        self.code = code
        self.declares = declared(code)
        self.foreign, self.own, self.modules, self.aliases, self.bad = set(), set(), {}, set(), []
        for k, p in self.parts:
            if k != "use":
                continue
            got = imports(p)
            if got is None:
                self.bad.append(p)
                continue
            for path, alias, item in got:
                f, rest = own_file(path)
                if item is None:
                    if alias:
                        self.modules[alias] = f if not rest or f is None else None
                        self.aliases.add(alias)
                    else:
                        self.modules[path.split(".")[-1]] = f
                    continue
                (self.own if f and rest else self.foreign).add(alias or path.split(".")[-1])
        # declarations that a generated need or a generated statement names
        self.kept = set()
        if os.path.basename(self.path) == "Proof.antt":
            for m in re.finditer(r"^" + HEAD + r"(\S+)[ ]*:[ ]*\w+\.(?:Need-|invariant|decreases)", code, re.M):
                self.kept.add(m[1])
            for m in re.finditer(r"^pub (\S+-spec)[ ]*:", code, re.M):
                self.kept.add(m[1])

    def stays(self, name):
        return name in self.kept or (name in self.foreign and name not in self.declares)


def words(piece):
    """(start, end, name, dotted, before) of each name of a piece of code; `dotted`: it stands right behind a dot."""
    for m in RUN.finditer(piece):
        if is_name(m[0]):
            s = m.start()
            dotted = s > 0 and piece[s - 1] == "." and (s > 1 and not piece[s - 2].isspace())
            before = ""
            if dotted:
                b = LAST.search(piece[max(0, s - 80):s])
                before = b[1] if b else ""
            yield s, m.end(), m[0], dotted, before




# ---- the whole repository

class Code:
    """A source file: which names of the theory its clauses have from where."""

    def __init__(self, path):
        self.path, self.text = path, read(os.path.join(ROOT, path))
        self.declares, self.kept, self.aliases, self.modules, self.own, self.foreign = {}, set(), set(), {}, set(), set()
        for m in re.finditer(r"^\s*ghost use [^;]*;", self.text, re.M):
            for path, alias, item in imports(m[0]) or []:
                f, rest = own_file(path)
                if item is None and not rest:
                    self.modules[alias or path.split(".")[-1]] = f
                    self.aliases |= {alias} if alias else set()
                    continue
                (self.own if f and rest else self.foreign).add(alias or path.split(".")[-1])

    def stays(self, name):
        return name in self.foreign

    def pieces(self):
        """(kind, piece): 'note', 'text', 'use', 'clause', 'code'."""
        pattern = re.compile(r'(?P<note>//.*$)|(?P<text>b?"(?:[^"\\]|\\.)*"|b?\'(?:[^\'\\\n]|\\.[^\'\n]*)\')|(?P<use>^\s*ghost use [^;]*;)'
                             r'|(?P<clause>^\s*(?:requires|ensures|decreases|invariant)(?:[ ]+\w+)?[ ]*\{)', re.M)
        at, pos, text = 0, 0, self.text
        while True:
            m = pattern.search(text, pos)
            if not m:
                break
            if m.start() > at:
                yield "code", text[at:m.start()]
            end = m.end()
            if m.lastgroup == "clause":
                depth = 1
                while depth:
                    depth += {"{": 1, "}": -1}.get(text[end], 0)
                    end += 1
            yield m.lastgroup, text[m.start():end]
            at = pos = end
        yield "code", text[at:]


class Repository:
    def __init__(self):
        self.theory = [Theory(p) for p in walk(".antt")]
        self.sources = [Code(p) for p in walk(".rt")]
        self.names, self.fields, every = set(), set(), set()
        for t in self.theory:
            every |= set(t.declares)
            self.names |= {n for n in t.declares if n not in t.kept} | t.aliases | set(self.bound(t))
            self.fields |= {n for n, kinds in t.declares.items() if "field" in kinds}
        self.every = every
        self.table = {n: snake(n) for n in sorted(self.names) if snake(n) != n}
        self.news = {snake(n) for n in self.names} | set(SPECIAL_IN.values())
        self.wrong = []

    def bound(self, t):
        """Names of the old spelling that a file uses and has from nowhere else: its locals."""
        for kind, piece in t.parts:
            if kind == "code":
                for _, _, name, dotted, _ in words(piece):
                    if not dotted and old_spelling(name) and not t.stays(name) and name not in t.kept:
                        yield name

    def new(self, t, name):
        """A name's new spelling in a file, where it is not behind a dot."""
        if (t.path, name) in SPECIAL_IN:
            return SPECIAL_IN[t.path, name]
        if (t.path, name) in ALIASES:
            old, other = ALIASES[t.path, name]
            return other if old in self.every else name
        if name in t.aliases:
            return plain(name)
        if name in KIT and (name in t.declares or name in t.own):
            old, other = KIT[name]
            return other if old in self.every else name
        return self.table.get(name, name)

    def turned(self, t, name, dotted, before):
        if dotted:
            own = name in self.fields or (before in t.modules and t.modules[before] is not None)
            return self.table.get(name, name) if own else name
        return name if t.stays(name) or name in t.kept else self.new(t, name)

    def code(self, t, piece):
        out, at = [], 0
        for s, e, name, dotted, before in words(piece):
            new = self.turned(t, name, dotted, before)
            if new != name:
                out += [piece[at:s], new]
                at = e
        return "".join(out) + piece[at:]

    def use(self, t, piece):
        """A `use`: the names that it brings from own files, and its aliases."""
        def item(path, text):
            f, rest = own_file(path)
            if f and rest:
                return re.sub(re.escape(rest[-1]) + r"$", lambda _: self.new(t, rest[-1]), text)
            return text

        m = re.match(r"(\s*(?:ghost |pub )*use )([^\s{;]*?)(\.?\s*)(\{[^}]*\})?(?:(\s*as )([^\s;]+))?(\s*;?\s*)$", piece, re.S)
        if not m:
            self.wrong.append("a `use` that is not understood in %s: %s" % (t.path, piece))
            return piece
        head, path, dot, braces, as_, alias, end = [g or "" for g in m.groups()]
        if braces:
            braces = re.sub(r"[^\s,{}]+", lambda w: item(path + "." + w[0], w[0]), braces)
        else:
            path = item(path, path)
        return head + path + dot + braces + as_ + (self.new(t, alias) if as_ else alias) + end

    def word(self, name):
        """A name in a page, a note or an edit, which may have the spelling before the kit's script."""
        if name in PAGES:
            return PAGES[name]
        if name in self.table:
            return self.table[name]
        return snake(name) if is_name(name) and old_spelling(name) and snake(name) in self.news else name

    def free(self, text):
        return re.sub(r"(?<![" + CHARS + r"])[" + CHARS + r"]+(?![" + CHARS + r"])", lambda m: self.word(m[0]), text)

    def prose(self, text):
        return re.sub(r"`([^`\n]*)`", lambda m: "`" + self.free(m[1]) + "`", text)

    def antt(self, t):
        turn = {"code": lambda p: self.code(t, p), "use": lambda p: self.use(t, p), "note": self.prose, "text": lambda p: p}
        return "".join(turn[kind](piece) for kind, piece in t.parts)

    def source(self, t):
        turn = {"code": lambda p: p, "use": lambda p: self.use(t, p), "clause": lambda p: self.code(t, p), "note": self.prose, "text": lambda p: p}
        return "".join(turn[kind](piece) for kind, piece in t.pieces())

    def edit(self, text):
        return "\n".join(line if line.startswith("file:") else self.free(line) for line in text.split("\n"))

    def met(self, t, pieces):
        """The names of a file that fall together."""
        made, plainly = collections.defaultdict(set), set()
        for kind, piece in pieces:
            if kind in ("code", "clause"):
                for _, _, name, dotted, before in words(piece):
                    new = name if isinstance(t, Code) and kind == "code" else self.turned(t, name, dotted, before)
                    if new != name:
                        made[new].add(name)
                    elif not dotted and not (kind == "code" and isinstance(t, Code)):
                        plainly.add(name)
                if kind == "code" and isinstance(t, Code):
                    # a parameter or a local hides a word of its name; a function may have a word's name
                    plainly |= set(re.findall(r"(?<![\w:.])(\w+)\s*:(?!:)", piece)) | set(re.findall(r"\blet\s+(?:mut\s+)?(\w+)", piece))
            elif kind == "use":
                for path, alias, item in imports(piece) or []:
                    if item is None and not alias:
                        continue
                    name = alias or path.split(".")[-1]
                    f, rest = own_file(path)
                    new = self.new(t, name) if alias or (f and rest) else name
                    if new != name:
                        made[new].add(name)
                    else:
                        plainly.add(name)
        for new in sorted(made):
            if len(made[new]) > 1:
                yield "%s: %s from %s" % (t.path, new, ", ".join(sorted(made[new])))
            if new in plainly:
                yield "%s: %s from %s, and it stands there" % (t.path, new, ", ".join(sorted(made[new])))
            if new in RESERVED:
                yield "%s: %s is a word of antt" % (t.path, new)


def pages():
    out = ["README.md"]
    for folder, dirs, files in os.walk(os.path.join(ROOT, "docs")):
        dirs.sort()
        out += [os.path.relpath(os.path.join(folder, f), ROOT) for f in sorted(files) if f.endswith(".md")]
    tests = os.path.join(ROOT, "tests")
    return out + [os.path.join("tests", f) for f in sorted(os.listdir(tests)) if f.endswith((".md", ".py"))]


def main():
    r = Repository()
    if "--table" in sys.argv:
        for old, new in sorted(r.table.items()):
            print(old, new)
        for (path, old), new in sorted(SPECIAL_IN.items()):
            print(old, new, path)
        for old, (beside, new) in sorted(KIT.items()):
            print(old, new)
        for (path, old), (beside, new) in sorted(ALIASES.items()):
            print(old, new, path)
        return 0
    wrong, out = [], {}
    for t in r.theory:
        out[t.path] = r.antt(t)
        wrong += r.met(t, t.parts)
    for t in r.sources:
        out[t.path] = r.source(t)
        wrong += r.met(t, list(t.pieces()))
        for kind, piece in t.pieces():
            if kind == "code":
                wrong += ["%s: %s stands in code" % (t.path, n) for _, _, n, d, _ in words(piece) if n in r.table and old_spelling(n)]
    for p in walk(".edit"):
        out[p] = r.edit(read(os.path.join(ROOT, p)))
    for p in pages():
        out[p] = r.prose(read(os.path.join(ROOT, p)))
        if p.endswith(".py"):
            # a pattern that looks up a clause of a definition
            out[p] = re.sub(r"(?<=\"\^)[A-Za-z]\w*", lambda m: r.word(m[0]), out[p])
    changed = [p for p, text in out.items() if text != read(os.path.join(ROOT, p))]
    if "--dry" not in sys.argv:
        for p in changed:
            with open(os.path.join(ROOT, p), "w", encoding="utf-8") as f:
                f.write(out[p])
    wrong += r.wrong + [n + ": an own name that is a word of antt" for n in sorted(r.names & RESERVED) if n not in r.table]
    for line in wrong:
        print(line)
    print("%d names, %d files changed, %d collisions left" % (len(r.table), len(changed), len(wrong)))
    return 1 if wrong else 0


if __name__ == "__main__":
    sys.exit(main())
