"""What the checks of this folder read: crates, public functions with their contracts, wrong programs, and the tables of docs/."""
import pathlib
import re
import sys
from collections import namedtuple

ROOT = pathlib.Path(__file__).resolve().parents[2]
CRATES = ROOT / "crates"
STATEMENTS = "docs/STATEMENTS.md"

# A public function: the modules that a caller names it by, the type that it belongs to, where it stands, and the text up to its body.
Function = namedtuple("Function", "crate modules kind name file line signature ensures requires")
Edit = namedtuple("Edit", "crate folder name path")

PUBLIC = re.compile(r'^(\s*)pub (?:(?:const|unsafe|extern "\w+") )*fn (\w+)')


def read(path):
    return (ROOT / path).read_text()


def crates():
    lines = [line.split("#")[0] for line in read("crates.txt").splitlines()]
    return [line.split(":")[0].split()[0] for line in lines if ":" in line]


# Crates that others use; the rest are programs.
def libraries():
    return [crate for crate in crates() if (CRATES / crate / "src/lib.rt").exists()]


CLAUSE = re.compile(r"\s*(ensures|requires)\*?(?: \w+)? \{")


# The text of a function up to its body, which begins with a brace that ends a line and belongs to no clause.
def head_of(lines, at):
    head, depth = [], 0
    for line in lines[at:]:
        depth += line.count("{") - line.count("}")
        head.append(line)
        if depth > 0 and line.endswith("{") and not CLAUSE.match(line):
            break
    return head


def functions_of_file(crate, file):
    lines, kind = file.read_text().splitlines(), ""
    relative = file.relative_to(CRATES / crate / "src").with_suffix("")
    modules = [part for part in relative.parts if part not in ("lib", "mod")]
    for at, line in enumerate(lines):
        if found := re.match(r"impl (\w+)", line):
            kind = found[1]
        elif line.startswith("}"):
            kind = ""
        if found := PUBLIC.match(line):
            head = head_of(lines, at)
            clauses = [clause[1] for clause in map(CLAUSE.match, head) if clause]
            signature = CLAUSE.split(" ".join(head))[0]
            yield Function(crate, modules, kind, found[2], file, at + 1, signature, clauses.count("ensures"), clauses.count("requires"))


def functions(crate):
    for file in sorted((CRATES / crate / "src").rglob("*.rt")):
        yield from functions_of_file(crate, file)


def is_inner(function):
    return "inner" in function.modules


# As a caller writes it: a module that is not public is no part of it.
def shown(function):
    root = read(f"crates/{function.crate}/src/lib.rt")
    public = [module for module in function.modules if f"pub mod {module};" in root]
    return "::".join([*public, *filter(None, [function.kind]), function.name])


def where(function):
    return f"{function.file.relative_to(ROOT)}:{function.line}: {shown(function)}"


def edits(crate):
    for folder in ("must-fail", "wrong"):
        for path in sorted((CRATES / crate / folder).glob("*.edit")):
            yield Edit(crate, folder, path.stem, path)


def edited_file(edit):
    return next((line[6:] for line in edit.path.read_text().splitlines() if line.startswith("file: ")), None)


# A file's text after an edit, and what is wrong with the edit, if anything: each old text has to stand there once.
def applied(edit, text):
    old = None
    for line in edit.path.read_text().splitlines():
        if line.startswith("old: "):
            old = line[5:]
        elif line.startswith("new: "):
            if old is None or text.count(old) != 1:
                return text, "its old text does not stand there once"
            text, old = text.replace(old, line[5:]), None
    return text, None if old is None else "an old text without a new one"


def cells(line):
    return [cell.strip() for cell in line.strip().strip("|").split("|")]


def is_row(line):
    return line.startswith("|") and not re.fullmatch(r"[|\s-]+", line)


def spans(text):
    return re.findall(r"`([^`]+)`", text)


# The parts of a page, by the text of their headings.
def sections(page, mark="## "):
    parts = re.split(rf"^{mark}(.*)$", read(page), flags=re.M)
    return dict(zip(parts[1::2], parts[2::2]))


# The crates whose functions promise less, from the list of exceptions: each item names one and gives a reason.
def unpromised():
    items = re.findall(r"^- `crates/(\w+)`(.*?)(?=^- |^$)", sections(STATEMENTS).get("Without a line", ""), re.M | re.S)
    return {crate for crate, reason in items if len(reason.split()) > 6}


# The paragraphs, rows and list items of a page, each with its first line's number; what is shown as code is left out.
def paragraphs(page):
    start, held, shown_as_code = 0, [], False
    for count, line in enumerate(read(page).splitlines() + [""], 1):
        shown_as_code ^= line.startswith("```")
        ends = not line.strip() or line.startswith(("|", "#", "```")) or re.match(r"\s*([-*]|\d+\.) ", line) or shown_as_code
        if ends and held:
            yield start, " ".join(held)
            held = []
        if shown_as_code or not line.strip() or line.startswith("```"):
            continue
        if not held:
            start = count
        held.append(line.strip())


# What is wrong, one to a line; the run ends with 1 if there is something.
def close(name, faults, said):
    for fault in faults:
        print(f"{name}: {fault}")
    if faults:
        sys.exit(1)
    print(f"{name}: {said}")
