#!/usr/bin/env python3
"""Checks that what README.md and docs/*.md name is there: paths, definitions and theorems (crate/File.name), edits,
groups of vectors, functions; that the numbers of refusals in include/wbmp.h and docs/REFUSALS.md are those of crate
error; and that README.md's graph of crates and table of definitions are the present ones.

Usage: tools/documents.py [--write]      --write puts the present graph and table into README.md
"""
import glob
import os
import re
import sys

os.chdir(os.path.join(os.path.dirname(os.path.abspath(__file__)), ".."))
wrong = 0


def read(path):
    with open(path, encoding="utf-8") as f:
        return f.read()


def tell(place, what):
    global wrong
    wrong += 1
    print(f"{place}: {what}")


LISTED = [(name.split()[0], deps) for name, deps in (line.split(":") for line in read("crates.txt").splitlines() if ":" in line and line[0] != "#")]
CRATES = [name for name, _ in LISTED]
GROUPS = [line.rsplit(" ", 1)[0] for line in read("crates/vectors/stdout").splitlines()]
CODE = "\n".join(read(p) for p in glob.glob("crates/*/src/**/*.rt", recursive=True))
MODULE = re.compile(
    r"(?<![\w/·])(%s)/(?:(?:specs|proofs)/(?:Internal/)?)?([A-Z]\w*)(?:\.(?!antt\b)([A-Za-z][\w-]*'?))?" % "|".join(CRATES))
PATH = re.compile(r"(?<![\w/.-])((?:crates|tools|docs|examples|include|\.ci)/[\w./*-]*[\w*])")


def module(crate, name):
    """The text of a module of definitions or laws, or None."""
    found = [p for kind in ("specs", "specs/Internal", "proofs") for p in [f"crates/{crate}/{kind}/{name}.antt"] if os.path.exists(p)]
    return "\n".join(map(read, found)) if found else None


def defines(text, name):
    return re.search(r"^\s*(?:(?:abbrev|unfoldable|pub|record|data|module|\|)\s+)*%s(?![\w'-])" % re.escape(name), text, re.M)


def declared(name):
    """Whether the code has a crate, function, type, constant or case of this name, or a method Type::name."""
    last = name.split("::")[-1]
    return last in CRATES or re.search(r"\b(?:fn|struct|enum|trait|type|const|mod) %s\b|^    %s(?:\(|,| \{)" % (last, last), CODE, re.M)


def check_text(place, text):
    """Paths and modules anywhere in a text."""
    for path in PATH.findall(text):
        if not glob.glob(path):
            tell(place, f"no {path}")
    for crate, name, part in MODULE.findall(text):
        body = module(crate, name)
        if body is None:
            tell(place, f"no {crate}/{name}")
        elif part and not defines(body, part):
            tell(place, f"no {part} in {crate}/{name}")


def check_names(place, cell, homes):
    """Names that stand without a path: of the module named before them in the cell, or of the section's."""
    last = None
    for token in (t.strip() for t in re.split(r"[,;()]", cell)):
        named = MODULE.fullmatch(token.split(" ")[0])
        beside = re.fullmatch(r"([A-Z]\w*)\.([\w-]+)", token)
        if named:
            last = named.groups()[:2]
        elif beside and homes and module(homes[0][0], beside[1]):
            last = (homes[0][0], beside[1])
            if not defines(module(*last), beside[2]):
                tell(place, f"no {token}")
        elif re.fullmatch(r"[A-Za-z][\w-]*'?(\.\w+)?", token):
            bodies = [b for b in (module(*h) for h in ([last] if last else []) + homes) if b]
            if bodies and not any(defines(b, token.split(".")[-1]) for b in bodies):
                tell(place, f"no {token}")


def check_tests(place, cell):
    for names in re.findall(r"\bedits? ((?:[\w*/]+(?: \([^)]*\))?(?:, )?)+)", cell):
        for name in re.sub(r" \([^)]*\)", "", names).strip(", ").split(", "):
            if "/" not in name and not glob.glob(f"crates/*/must-fail/{name}.edit"):
                tell(place, f"no edit {name}")
    for crate, name in re.findall(r"\b(%s)/(?:must-fail/)?([a-z]\w*)" % "|".join(CRATES), cell):
        if name in ("stdout", "stdin", "specs", "proofs", "src") or os.path.isdir(f"crates/{crate}/{name}"):
            continue
        if not os.path.exists(f"crates/{crate}/must-fail/{name}.edit"):
            tell(place, f"no edit {crate}/{name}")
    for groups in re.findall(r"vectors ((?:`[^`]+`(?:, )?)+)", cell):
        for group in re.findall(r"`([^`]+?)(?: \.\.)?`", groups):
            if not any(g.startswith(group) or group in g.split() for g in GROUPS):
                tell(place, f"no group {group} of vectors")


def check_rows(path):
    """The tables of docs/TRACEABILITY.md."""
    homes, section = [], ""
    for line in read(path).splitlines():
        place = f"{path}, {section}"
        if line.startswith("## "):
            homes, section = [], line[3:]
        elif not line.startswith("|"):
            homes += [m[:2] for m in MODULE.findall(line)]
        elif not re.match(r"\|-|\| (Sentence|Wrong program) \|", line):
            cells = [c.strip() for c in line.strip().strip("|").split("|")]
            for cell in cells[1:-1] or cells[1:]:
                check_names(place, re.sub(r"`[^`]*`|\bedits? [^;]*", "", cell), homes)
                for name in re.findall(r"`([\w:]+)`", cell):
                    if not declared(name):
                        tell(place, f"no {name} in the code")
            check_tests(place, cells[-1])


def check_numbers():
    """The numbers of refusals, by their cases, which C has in capitals."""
    cases = re.search(r"enum Refusal \{(.*?)\n\}", read("crates/error/src/lib.rt"), re.S)[1]
    names = re.findall(r"^    (\w+)(?: = 1)?,", cases, re.M)
    numbers = {name: str(i) for i, name in enumerate(names, 1)}
    capitals = {re.sub(r"(?<=[a-z])(?=[A-Z0-9])", "_", n).upper(): k for n, k in numbers.items()}
    for name, number in re.findall(r"#define WBMP_(\w+) (\d+) +/\*", read("include/wbmp.h")):
        if capitals.get(name) != number:
            tell("include/wbmp.h", f"{name} is not {number}")
    rows = re.findall(r"^\| ([\d, ]+) \| ([`\w, ]+) \|", read("docs/REFUSALS.md"), re.M)
    told = {n.strip("` "): k.strip() for ks, ns in rows for k, n in zip(ks.split(","), ns.split(","))}
    if told != numbers:
        tell("docs/REFUSALS.md", f"other numbers than in crate error: {sorted(set(told.items()) ^ set(numbers.items()))}")


def definitions():
    """The table of README.md: the modules of specs/ in the order of crates.txt and specs/Lib.antt, with their lines."""
    rows, files, lines = [], 0, 0
    for crate in CRATES:
        lib = f"crates/{crate}/specs/Lib.antt"
        names = re.findall(r"^pub mod (\w+)", read(lib), re.M) if os.path.exists(lib) else []
        sizes = [(n, len(read(f"crates/{crate}/specs/{n}.antt").splitlines())) for n in names if n != "Internal"]
        if sizes:
            rows.append(f"| `{crate}` | {', '.join(f'{n} {k}' for n, k in sizes)} | {sum(k for _, k in sizes)} |")
            files, lines = files + len(sizes), lines + sum(k for _, k in sizes)
    return "\n".join(rows + [f"| together | {files} files | {lines:,} |"])


def graph():
    """The crates in layers, each with those that it stands on directly."""
    below, level, lines = {}, {}, {}
    for name, needs in LISTED:
        deps = [d for d in needs.split() if d in CRATES]
        below[name] = set(deps).union(*(below[d] for d in deps))
        level[name] = 1 + max((level[d] for d in deps), default=0)
        direct = [d for d in deps if not any(d in below[e] for e in deps)]
        lines.setdefault(level[name], []).append(f"{name} ← {' '.join(direct)}" if direct else name)
    return "\n".join("    ".join(lines[n]) for n in sorted(lines))


def present(text):
    """README.md with the present graph and table."""
    text = re.sub(r"(stands on directly\.\n\n```\n)(?:[^`\n].*\n)*", lambda m: m[1] + graph() + "\n", text)
    return re.sub(r"(\| crate \| files in specs/.*\n\|-.*\n)(?:\|.*\n)*", lambda m: m[1] + definitions() + "\n", text)


readme = read("README.md")
if "--write" in sys.argv:
    with open("README.md", "w", encoding="utf-8") as f:
        f.write(present(readme))
elif present(readme) != readme:
    tell("README.md", "the graph of crates or the table of definitions is not the present one")
# Three pages tell of what was.
PAST = {"docs/PORT.md", "docs/DESIGN-PASS.md", "docs/LOOK-BACK.md"}
for document in ["README.md"] + sorted(set(glob.glob("docs/**/*.md", recursive=True)) - PAST):
    check_text(document, read(document))
check_rows("docs/TRACEABILITY.md")
check_numbers()
print(f"{wrong} wrong")
sys.exit(wrong > 0)
