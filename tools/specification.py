"""Makes docs/SPECIFICATION.md from the comments of crates/*/specs/**, those of specs/private and specs/laws left out.

A crate's section begins with the comment at the head of its specs/Lib.antt. Each of its modules has the first sentence of the comment at
the head of its file, and then the definitions that promised clauses use: a relation or a type, whose name begins with a capital letter, with
the comment above it, and functions by their names. A clause is promised if docs/PROMISES.md names it; clauses of laws (src/laws.rt), which
speak of the definitions themselves, don't count here."""

import os
import re
import textwrap

from contracts import PAGE, ROOT, WORD, calls_of, imports_of, read, read_contracts, rows_of, sources_of

TESTS = re.compile(r"test_\w+|\w+_tests")
LEFT_OUT = {"private", "laws"}
WIDTH = 128
DEFINITION = re.compile(r"(?:(?:unfoldable|abbrev) )?pub (?:(?:record|data) )?([^\s(){}:]+)")
NO_NAMES = {"mod", "use"}
# what stands between the first sentence and the next one
SENTENCE = re.compile(r"(?<=[.]) (?=[A-Z`'])")
INTRO = """# Specification

What a reader must believe: the definitions that the promised clauses use, crate by crate, lowest first. `make pages` writes this page
from the comments in `crates/CRATE/specs/`. Each heading below a crate is a module, `crates/CRATE/specs/MODULE.antt`. Below it stand the
relations and types that promised clauses use, and the names of such functions. The module has the others too, which these are made of,
and each has a comment there.

Octets are lists of numbers. *White* is space or tab; *high* is an octet above 127. The modules in `specs/private/`, which say what
private functions answer and how the values of a program are seen, and those in `specs/laws/`, which prove what holds of the
definitions, aren't shown here.
"""


def crates():
    """The crates of crates.txt but those of tests, in its order."""
    names = [line.partition("#")[0].partition(":")[0].strip() for line in read("crates.txt").split("\n")]
    return [name for name in names if name and not TESTS.fullmatch(name)]


def modules_of(crate):
    """The modules of a crate's specs/ in the order of Lib.antt, which has a line `pub mod NAME` for each; those that are left out aren't among them."""
    path = f"crates/{crate}/specs/Lib.antt"
    text = read(path) if os.path.exists(os.path.join(ROOT, path)) else ""
    return [name for name in re.findall(r"^pub mod (\w+)$", text, re.MULTILINE) if name not in LEFT_OUT]


def comment_above(lines, at):
    """The comment that ends right above this line. A line `-- ----` divides a file, and says nothing of what follows."""
    first = at
    while first > 0 and lines[first - 1].startswith("--") and not lines[first - 1].startswith("-- ---"):
        first -= 1
    return " ".join(line.removeprefix("--").strip() for line in lines[first:at])


def head_of(path):
    """The comment at the head of a file."""
    lines = read(path).split("\n") if os.path.exists(os.path.join(ROOT, path)) else [""]
    end = next(at for at, line in enumerate(lines) if not line.startswith("--"))
    return comment_above(lines, end)


def definitions_in(path):
    """The name and the comment of each public definition of a module."""
    lines = read(path).split("\n")
    for at, line in enumerate(lines):
        found = DEFINITION.match(line)
        if found and found[1] not in NO_NAMES:
            yield found[1], comment_above(lines, at)


def promised_clauses():
    """The clauses that PROMISES names, by crate, type (None: none) and call."""
    found = {}
    for _, cells in rows_of(read(PAGE)):
        for crate, owner, call, clauses in calls_of(cells[1]):
            found.setdefault(crate, {}).setdefault((owner, call), set()).update(clauses)
    return found


def cited():
    """The definitions that promised clauses use, each as (crate, module, name)."""
    names = set()
    for crate, promised in promised_clauses().items():
        for path, text in sources_of(crate):
            if os.path.basename(path) == "laws.rt":
                continue
            imports, contracts = imports_of(text), {}
            read_contracts(text.split("\n"), contracts)
            for call, clauses in contracts.items():
                used = [clauses[it] for it in promised.get(call, ()) if it in clauses]
                names.update(imports[word] for clause in used for word in WORD.findall(clause) if word in imports)
    return names


def paragraph(text, mark=""):
    return textwrap.fill(text, WIDTH, initial_indent=mark, subsequent_indent=" " * len(mark), break_long_words=False, break_on_hyphens=False)


def section_of(crate, names):
    """The lines of a crate's section."""
    yield f"\n## {crate}\n"
    head = head_of(f"crates/{crate}/specs/Lib.antt")
    if head:
        yield paragraph(head) + "\n"
    for module in modules_of(crate):
        path = f"crates/{crate}/specs/{module}.antt"
        yield f"### {module}"
        yield paragraph(SENTENCE.split(head_of(path))[0])
        used = [(name, comment) for name, comment in definitions_in(path) if (crate, module, name) in names]
        for name, comment in used:
            if comment and name[0].isupper():
                yield paragraph(f"`{name}`: {comment}", "- ")
        functions = [f"`{name}`" for name, _ in used if not name[0].isupper()]
        if functions:
            yield paragraph(", ".join(functions), "- ")


def page():
    """The text of docs/SPECIFICATION.md."""
    names = cited()
    return INTRO + "\n".join(line for crate in crates() if modules_of(crate) for line in section_of(crate, names)) + "\n"
