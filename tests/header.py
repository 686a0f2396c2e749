#!/usr/bin/env python3
"""Holds include/txp.h to the source of the library: crates/ctxp_c, whose exports call crates/ctxp, and the crates that state its numbers.

  header.py [DIR]     DIR is the repository, by default the one that this file is in

Compared: the exported functions, their order, the name, width, sign and order of each parameter, the result, and the call of `ctxp`
that each makes, which has the same parameters, result and clauses; the answer's fields
with the source's struct, with the order in which they are put and with the definitions `Entry`, `entry_of` and `entries`; the record's
fields with the source's struct and with the order in which the calls take and put them; the refusals' numbers, and those of why the
bits ended, with as many texts; the limits and the sizes to lend; the declarations of examples/rust with the header; and that each
public call of the base is exported or is named in docs/DECISIONS.md.
Exit status 1 where something differs.
"""
import os
import re
import sys

ROOT = sys.argv[1] if len(sys.argv) > 1 else os.path.join(os.path.dirname(os.path.abspath(__file__)), "..")
NUMBERS = {"u8": "uint8_t", "u32": "uint32_t", "i32": "int32_t", "f32": "float", "usize": "size_t"}
wrong = []


def read(*path):
    return open(os.path.join(ROOT, *path)).read()


def same(what, c, rattle):
    if c != rattle:
        wrong.append(f"{what}: the header has {c}, the source {rattle}")


def source(*path):
    return re.sub(r"//[^\n]*", "", read(*path))


def in_c(name, kind, lengths):
    """The C parameters of one parameter of the source. A lent array of so many numbers is one of the header's structs."""
    if kind in NUMBERS:
        return [f"{NUMBERS[kind]} {name}"]
    m = re.fullmatch(r"&(mut )?\[(\w+)\]", kind)
    if m:
        return [f"{'' if m[1] else 'const '}{NUMBERS[m[2]]} *{name}", f"size_t {name}_len"]
    m = re.fullmatch(r"&mut \[u32; (\d+)\]", kind)
    if m and int(m[1]) in lengths:
        return [f"{lengths[int(m[1])]} *{name}"]
    m = re.fullmatch(r"&mut (\w+)", kind)
    if m and m[1] in NUMBERS:
        return [f"{NUMBERS[m[1]]} *{name}"]
    wrong.append(f"no C type for `{name}: {kind}`")
    return [f"? {name}"]


def rattle_functions(text, lengths):
    for m in re.finditer(r'#\[unsafe\(no_mangle\)\]\s+pub extern "C" fn (\w+)\((.*?)\)\s*(?:->\s*(\w+))?\s*ensures', text, re.S):
        params = []
        for p in re.split(r",(?![^\[]*\])", m[2]):
            if p.strip():
                name, kind = p.strip().split(": ", 1)
                params += in_c(name, kind, lengths)
        yield m[1], NUMBERS.get(m[3], m[3]), params


def c_functions(text):
    for m in re.finditer(r"^(\w+) (txp_\w+)\(([^)]*)\);", text, re.M):
        yield m[2], m[1], [" ".join(p.split()) for p in m[3].split(",")]


def functions(header, lengths):
    marked = 0
    ours = []
    folder = os.path.join(ROOT, "crates", "ctxp_c", "src")
    for file in ["lib.rt"] + sorted(set(os.listdir(folder)) - {"lib.rt"}):
        text = source("crates", "ctxp_c", "src", file)
        marked += text.count("no_mangle") + text.count("extern \"C\"")
        ours += list(rattle_functions(text, lengths))
    same("exported functions that this test can read", 2 * len(ours), marked)
    theirs = list(c_functions(header))
    same("functions, in order", [f[0] for f in theirs], [f[0] for f in ours])
    declared = {f[0]: f for f in theirs}
    for name, result, params in ours:
        if name in declared:
            same(f"{name}'s result", declared[name][1], result)
            same(f"{name}'s parameters", declared[name][2], params)
    exports()
    return len(ours)


def declared_in(crate):
    """The functions of a crate's root file: how each is declared, by its name, and its body."""
    head = r'^((?:#\[unsafe\(no_mangle\)\]\n)?(?:pub )?(?:extern "C" )?)fn (\w+)\((.*?)\) -> (\w+)\n(.*?)^\{\n(.*?)^\}'
    for m in re.finditer(head, source("crates", crate, "src", "lib.rt"), re.S | re.M):
        params = [p.strip() for p in re.split(r",(?![^\[]*\])", m[3]) if p.strip()]
        yield m[2], (m[1], params, m[4], m[5]), " ".join(m[6].split())


def exports():
    """Each export has the parameters, the result and the clauses of the call of `ctxp` of its name, and is that call. The clauses' words are the same definitions."""
    base = {name: form for name, form, _ in declared_in("ctxp")}
    for name, form, body in declared_in("ctxp_c"):
        same(f"{name}, as ctxp_c and as ctxp", form, ('#[unsafe(no_mangle)]\npub extern "C" ', *base.get(name, ["no function"])[1:]))
        if re.sub(r"\(\s+|,?\s+\)$|,\)$", lambda m: m[0].strip(", "), body) != f"ctxp::{name}({', '.join(p.split(':')[0] for p in form[1])})":
            wrong.append(f"{name} is not the call of ctxp of its name: {body}")
    words = source("crates", "ctxp", "src", "lib.rt")
    for line in re.findall(r"^ghost use .*", source("crates", "ctxp_c", "src", "lib.rt"), re.M):
        if line not in words:
            wrong.append(f"ctxp_c has words that ctxp has not: {line}")


def fields(header):
    body = re.search(r"typedef struct txp_answer \{(.*?)\} txp_answer;", header, re.S)[1]
    ours = re.findall(r"(\w+) (\w+);", body)
    answers = source("crates", "ctxp", "src", "answers.rt")
    struct = re.search(r"pub struct Answer \{(.*?)\}", answers, re.S)[1]
    same("the answer's fields", ours, [(NUMBERS.get(k, k), n) for n, k in re.findall(r"pub (\w+): (\w+)", struct)])
    names = [n for _, n in ours]
    put = [e.strip() for e in re.search(r"\*to = \[(.*?)\];", answers, re.S)[1].split(",") if e.strip()]
    same("the answer's fields as put", [f"a.{n}" for n in names], put)
    spec = read("crates", "ctxp", "specs", "Answers.antt")
    same("the answer's fields as defined", names, re.search(r"^pub data Entry .*?where\n(.*?) : Entry", spec, re.S | re.M)[1].split())
    same("the answer's fields as numbered", [(n, str(i)) for i, n in enumerate(names)],
         re.findall(r"(\w+) ↦ (\d+)", re.search(r"^entry_of e = elim e \[(.*?)\]", spec, re.S | re.M)[1]))
    same("the numbers of an answer that says nothing", len(names), int(re.search(r"^says \[\] = replicate (\d+) 0", spec, re.M)[1]))
    inner = read("crates", "ctxp", "specs", "Inner.antt")
    same("the struct's fields, entry after entry", names, re.findall(r"\ba\.(\w+)", re.search(r"^entries a =(.*?)\[\]", inner, re.S | re.M)[1]))
    return len(names)


def record(header):
    ours = re.findall(r"(\w+) (\w+);", re.search(r"typedef struct txp_record \{(.*?)\} txp_record;", header, re.S)[1])
    same("the record's numbers", {kind for kind, _ in ours}, {"uint32_t"})
    names = [n for _, n in ours]
    # the header has the answer's name for P, the source the document's
    short = ["p" if n == "planes" else n for n in names]
    struct = re.search(r"pub struct Record \{(.*?)\}", source("crates", "steps", "src", "lib.rt"), re.S)[1]
    same("the record's fields", short, [n for n, _ in re.findall(r"pub (\w+): (u32)", struct)])
    folder = os.path.join(ROOT, "crates", "ctxp", "src")
    calls = "".join(source("crates", "ctxp", "src", file) for file in sorted(os.listdir(folder)))
    same("the record's fields as taken", [(n, str(i)) for i, n in enumerate(short)], re.findall(r"\b(\w+)(?::| =) \w+\[(\d+)\]", calls))
    put = [re.findall(r"(\w+)\s*(?:,|$)", items) for items in re.findall(r"\*\w+ = \[(.*?)\];", calls, re.S)]
    same("the record's fields as put", [short], [items for items in put if len(items) == len(names)])
    return len(names)


def refusals(header):
    enum = re.search(r"enum txp_refusal \{(.*?)\};", header, re.S)[1]
    ours = {n: int(k) for n, k in re.findall(r"TXP_(?:REFUSED_)?(\w+) = (\d+)", enum)}
    number = re.search(r"pub fn number.*?^\}", source("crates", "refusals", "src", "lib.rt"), re.S | re.M)[0]
    theirs = {n.upper(): int(k) for n, k in re.findall(r"Refusal::(\w+)(?:\(_\))? => (\d+)", number)}
    same("the refusals", ours, {"DONE": 0, **theirs})
    same("the refusals' texts", len(texts(header, "txp_refusal_text")), len(ours))
    return len(theirs)


def texts(header, function):
    """The texts of one of the header's functions, by their numbers."""
    body = re.search(rf"\*{function}\(uint32_t \w+\)\n\{{(.*?)^\}}", header, re.S | re.M)[1]
    return re.findall(r"\"([^\"]+)\"", re.search(r"texts\[\] = \{(.*?)\};", body, re.S)[1])


def endings(header):
    """Why the bits ended: the header's numbers and texts against the definition, the source and the words of txpshow."""
    ours = [(n, int(k)) for n, k in re.findall(r"TXP_(\w+) = (\d+)", re.search(r"enum txp_ending \{(.*?)\};", header, re.S)[1])]
    same("the endings' numbers, in order", [k for _, k in ours], list(range(len(ours))))

    def named(pairs):
        return [(re.sub(r"(?<=[a-z])(?=[A-Z])", "_", n).upper(), int(k)) for n, k in pairs]

    spec = read("crates", "ctxp", "specs", "Answers.antt")
    same("the endings as defined", ours, named(re.findall(r"^ending_number endings\.(\w+) = (\d+)$", spec, re.M)))
    answers = source("crates", "ctxp", "src", "answers.rt")
    same("the endings as put", ours, named(re.findall(r"Ending::(\w+) => (\d+)", answers)))
    words = texts(header, "txp_ending_text")
    same("the endings' texts", len(words), len(ours))
    shown = re.findall(r"Ending::(\w+) => put_letters\(out, at, b\" (\w+)\"\)", source("crates", "show", "src", "lib.rt"))
    same("the endings' words", [(n, w) for (n, _), w in zip(ours, words)][1:], [(n.upper(), w) for n, w in shown])
    rust_words = re.search(r"fn ending_text\(.*?\[(.*?)\]", source("examples", "rust", "txp.rs"), re.S)[1]
    same("the endings' texts, in Rust", words, re.findall(r"\"([^\"]+)\"", rust_words))
    return len(ours)


def macro(defines, name, n=None):
    m = re.search(rf"^#define {name}(\(n\))? (.*)$", defines, re.M)
    if not m:
        wrong.append(f"no macro {name}")
        return None
    text = m[2].replace("(size_t)", "").replace("/", "//")
    while True:
        inner = re.search(r"(TXP_\w+)(\(n\))?", text)
        if not inner:
            break
        text = text.replace(inner[0], f"({macro(defines, inner[1], n)})")
    return eval(text, {"__builtins__": {}}, {"n": n})


def sizes(header):
    limits = {n: int(k) for n, k in re.findall(r"pub const (\w+): \w+ = (\d+);", source("crates", "sizes", "src", "lib.rt") + source("crates", "txp", "src", "lib.rt"))}
    for name in ("LEAST_N", "MOST_N", "LIMIT", "MOST_PLANES", "HEADER_SIZE"):
        same(f"TXP_{name}", macro(header, f"TXP_{name}"), limits.get(name))
    samples = {n: int(k) for n, k in re.findall(r"^const (\w+_SAMPLE): \w+ = (-?\d+);", source("crates", "transform", "src", "lib.rt"), re.M)}
    for name in ("LEAST_SAMPLE", "MOST_SAMPLE"):
        same(f"TXP_{name}", macro(header, f"TXP_{name}"), samples.get(name))
    same("TXP_NO_BUDGET", macro(header, "TXP_NO_BUDGET"), 2**32 - 1)
    same("TXP_FILE_VERSION", macro(header, "TXP_FILE_VERSION"), int(re.search(r"^version = (\d+)$", read("crates", "txp", "specs", "Header.antt"), re.M)[1]))
    for n in range(limits["LEAST_N"], limits["MOST_N"] + 1):
        every = 4 ** n
        same(f"TXP_ENTRIES({n})", macro(header, "TXP_ENTRIES", n), every)
        same(f"TXP_DESC({n})", macro(header, "TXP_DESC", n), every // 4)
        same(f"TXP_GRAND({n})", macro(header, "TXP_GRAND", n), every // 16)
        for l in range(1, n):
            coarsest = 4 ** (n - l)
            worst = every * (limits["MOST_PLANES"] + 1) + (every - coarsest) // 4 + (every - 4 * coarsest) // 16
            if macro(header, "TXP_MOST_BODY", n) < (worst + 7) // 8:
                wrong.append(f"TXP_MOST_BODY({n}) is below the worst body at L = {l}")
        same(f"TXP_MOST_FILE({n})", macro(header, "TXP_MOST_FILE", n), limits["HEADER_SIZE"] + macro(header, "TXP_MOST_BODY", n))


def in_rust(param):
    """The parameter of examples/rust that a parameter of the header is."""
    kinds = {c: r for r, c in NUMBERS.items()} | {"txp_answer": "Answer"}
    const, kind, star, name = re.fullmatch(r"(const )?(\w+) (\*)?(\w+)", param).groups()
    return f"{name}: {'*const ' if const else '*mut ' if star else ''}{kinds[kind]}"


def rust(header):
    text = source("examples", "rust", "txp.rs")
    struct = re.search(r"pub struct Answer \{(.*?)\}", text, re.S)[1]
    same("the answer's fields, in Rust", re.findall(r"(\w+) (\w+);", re.search(r"struct txp_answer \{(.*?)\}", header, re.S)[1]),
         [(NUMBERS.get(k, k), n) for n, k in re.findall(r"pub (\w+): (\w+)", struct)])
    declared = {name: (result, params) for name, result, params in c_functions(header)}
    ours = re.findall(r"pub fn (txp_\w+)\((.*?)\) -> (\w+);", text, re.S)
    for name, params, result in ours:
        if name not in declared:
            wrong.append(f"{name} is declared in Rust alone")
            continue
        same(f"{name}'s result, in Rust", declared[name][0], NUMBERS.get(result, result))
        same(f"{name}'s parameters, in Rust", [in_rust(p) for p in declared[name][1]], [p.strip() for p in params.split(",") if p.strip()])
    return len(ours)


def base():
    """Each public call of the base is made in the library's source or is named in docs/DECISIONS.md."""
    crates = re.search(r"^ctxp: (.*)$", read("crates.txt"), re.M)[1].split()
    made = source("crates", "ctxp", "src", "lib.rt") + source("crates", "ctxp", "src", "answers.rt")
    said = read("docs", "DECISIONS.md")
    count = 0
    for crate in crates:
        path = ("crates", crate, "src", "lib.rt")
        if not os.path.exists(os.path.join(ROOT, *path)):
            continue
        text = source(*path)
        names = re.findall(r"^pub fn (\w+)", text, re.M) + [n for n in re.findall(r"\w+", " ".join(a or b for a, b in re.findall(r"^pub use \w+::(?:(\w+)|\{(.*?)\});", text, re.S | re.M))) if n[0].islower()]
        for name in names:
            count += 1
            if not re.search(rf"\b{crate}::{name}\(", made) and f"`{crate}::{name}`" not in said:
                wrong.append(f"{crate}::{name} is not exported, and docs/DECISIONS.md does not name it")
    return count


def main():
    text = read("include", "txp.h")
    header = re.sub(r"[ \t]*/\*.*?\*/", "", text, flags=re.S)
    length = fields(header)
    lengths = {length: "txp_answer", record(header): "txp_record"}
    counts = functions(header, lengths), length, refusals(header), endings(header), rust(header), base()
    sizes(header)
    for line in wrong:
        print(line)
    print("txp.h: %d functions, %d fields, %d refusals, %d endings; %d declarations in Rust; %d calls of the base; %d differences" % (*counts, len(wrong)))
    return 1 if wrong else 0


sys.exit(main())
