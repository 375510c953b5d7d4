"""Reads docs/PROMISES.md and the contracts of the code: which clauses each public call has, and which words each clause uses."""

import os
import re

ROOT = os.path.dirname(os.path.dirname(os.path.abspath(__file__)))
PAGE = "docs/PROMISES.md"
HEAD = ["promise in plain words", "crate::call: clause names", "must-fail edits"]

CALL = re.compile(r"`([a-z][a-z0-9_]*)::(?:([A-Z]\w*)::)?([a-z][a-z0-9_]*)`: ([a-z0-9_]+(?:, [a-z0-9_]+)*)")
FUNCTION = re.compile(r"( *)(pub )?(?:const )?fn ([a-z][a-z0-9_]*)\b")
CLAUSE = re.compile(r"\s+(ensures|requires)(?: ([a-z][a-z0-9_]*))? \{")
IMPORT = re.compile(r"^ghost use Rattle\.(\w+)\.specs\.([\w.]+)\.\{([^}]*)\};", re.MULTILINE)
WORD = re.compile(r"[^\s(){}\[\]:;,.«»]+")
UNNAMED = "result"


class Bad(Exception):
    """What is wrong with a row."""


def read(path):
    with open(os.path.join(ROOT, path), encoding="utf-8") as file:
        return file.read()


def rows_of(page):
    """The number and the cells of each row of each table whose head is HEAD."""
    rows, is_ours = [], False
    for number, line in enumerate(page.split("\n"), 1):
        if not line.startswith("|"):
            is_ours = False
            continue
        cells = [cell.strip() for cell in line.strip().strip("|").split("|")]
        if cells == HEAD:
            is_ours = True
        elif is_ours and not all(re.fullmatch(r":?-+:?", cell) for cell in cells):
            rows.append((number, cells))
    return rows


def calls_of(text):
    """(crate, type, call, clauses) of each call of the second cell."""
    found = [CALL.fullmatch(part.strip()) for part in text.split(";")]
    if not all(found):
        raise Bad(f"the second cell isn't `crate::call`: clause, clause; ..: {text}")
    return [(it[1], it[2], it[3], it[4].split(", ")) for it in found]


def sources_of(crate):
    """The .rt files of a crate, each with its text."""
    for at, _, names in os.walk(os.path.join(ROOT, "crates", crate, "src")):
        for name in sorted(names):
            if name.endswith(".rt"):
                path = os.path.join(at, name)
                yield path, read(path)


def public_contracts(crate):
    """The clauses of each public call, by type (None: none) and name: the names of the clauses, each with its text. An unnamed clause is UNNAMED."""
    found = {}
    for _, text in sources_of(crate):
        read_contracts(text.split("\n"), found)
    return found


def owner_of(line):
    """The type or trait of a block that begins with this line, and whether its functions are public without `pub`."""
    block = re.match(r"(?:pub )?(impl|trait)(?:<.*?>)? (?:.* for )?([A-Z]\w*)", line)
    if not block:
        return None, False
    return block[2], " for " in line or line.startswith("pub trait ")


def read_contracts(lines, found):
    """Adds the public calls of one file. rt fmt sees to it that items begin at column 0, and methods at column 4."""
    owner, is_open, clauses, clause = None, False, None, None
    for line in lines:
        if line and line[0] not in " }/#":
            owner, is_open = owner_of(line)
        function, begun = FUNCTION.match(line), CLAUSE.match(line)
        if function:
            indent, public, name = function.groups()
            is_public = bool(public) or (bool(indent) and is_open)
            clauses, clause = found.setdefault((owner if indent else None, name), {}) if is_public else None, None
        elif re.fullmatch(r" *\{\}?", line):
            clauses = None
        elif clauses is not None and begun:
            clause = (begun[2] or UNNAMED) if begun[1] == "ensures" else None
        if clauses is not None and clause and not line.lstrip().startswith("//"):
            clauses[clause] = clauses.get(clause, "") + line + "\n"


def imports_of(text):
    """The definitions of specs/ that a file imports, as (crate, module, name), by the name that the file uses."""
    found = {}
    for crate, module, names in IMPORT.findall(text):
        for item in filter(None, (it.strip() for it in names.split(","))):
            name, _, own = item.partition(" as ")
            found[own or name] = (crate, module, name)
    return found
