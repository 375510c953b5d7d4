"""The wrong bodies of the crates: where they stand, what they change, and the page that says what refused each.

An edit is crates/CRATE/must-fail/NAME.edit, which the gate tries, or tools/edits/CRATE/NAME.edit: lines `file: PATH` and then pairs of
lines `old: TEXT` and `new: TEXT`. docs/EDITS.md has a row for each, with a stamp of the edit and of the contracts at which it was tried."""

import hashlib
import os
import re

ROOT = os.path.dirname(os.path.dirname(os.path.abspath(__file__)))
PAGE = "docs/EDITS.md"
PLACES = "crates/{}/must-fail", "tools/edits/{}"
HEAD = ["edit", "what refused it", "stamp"]
# how a cell begins where nothing refused an edit, and where no goal did
PROVED, BY_ANSWER = "nothing", "answer"
# parts of specs/ that say nothing which a caller may rely on
APART = {"private", "laws"}
FUNCTION = re.compile(r"( *)(pub(?:\(\w+\))? )?(?:const )?(?:unsafe )?fn (\w+)")
BLOCK = re.compile(r"(pub )?(?:unsafe )?(impl|trait)\b")
CLAUSE = re.compile(r" +(?:requires|ensures|ghost)\b")


def read(*path):
    with open(os.path.join(ROOT, *path), encoding="utf-8") as file:
        return file.read()


def files_below(folder, ending, without=()):
    """The files below a folder of the repository with this ending, by their path from it, in order."""
    found, top = [], os.path.join(ROOT, folder)
    for at, folders, names in os.walk(top):
        folders[:] = sorted(set(folders) - set(without))
        found += [os.path.relpath(os.path.join(at, name), top) for name in sorted(names) if name.endswith(ending)]
    return sorted(found)


def crates_with_edits():
    """The crates that have edits in either place."""
    names = {name for folder in ("crates", "tools/edits") for name in os.listdir(os.path.join(ROOT, folder))}
    return sorted(name for name in names if edits_of(name))


def edits_of(crate):
    """The paths of a crate's edits, by name."""
    found = {}
    for place in PLACES:
        folder = place.format(crate)
        if os.path.isdir(os.path.join(ROOT, folder)):
            names = [name for name in os.listdir(os.path.join(ROOT, folder)) if name.endswith(".edit")]
            found.update({name[: -len(".edit")]: f"{folder}/{name}" for name in names})
    return dict(sorted(found.items()))


class Unfit(Exception):
    """Why an edit can't be applied."""


def changes_of(path):
    """(file, old, new) of each pair of an edit."""
    file, old, found = "", None, []
    for line in read(path).split("\n"):
        if line.startswith("file: "):
            file = line[len("file: ") :].strip()
        elif line.startswith("old: "):
            old = line[len("old: ") :]
        elif line.startswith("new:") and old is not None:
            found.append((file, old, line[len("new:") :].removeprefix(" ")))
            old = None
    if not found:
        raise Unfit("it has no pair of old: and new:")
    return found


def applied(crate, path):
    """The texts that an edit leads to, by their path in the crate."""
    texts, was = {}, {}
    for file, old, new in changes_of(path):
        if file not in texts:
            if not os.path.isfile(os.path.join(ROOT, "crates", crate, file)):
                raise Unfit(f"there is no crates/{crate}/{file}")
            texts[file] = was[file] = read("crates", crate, file)
        count = texts[file].count(old)
        if count != 1:
            raise Unfit(f"its text stands {count} times in {file}, not once: {old.strip()}")
        texts[file] = texts[file].replace(old, new)
    if texts == was:
        raise Unfit("it changes nothing")
    return texts


def without_comments(text, mark):
    """The words of a text, without its comments."""
    return " ".join(re.sub(rf"(^|\s){mark}.*", r"\1", text, flags=re.MULTILINE).split())


def headers_of(text):
    """The public functions of a file, each with its clauses. rt fmt sees to it that items begin at column 0, and methods at column 4."""
    found, header, is_open = [], None, False
    for line in text.split("\n"):
        if line and line[0] not in " }/#":
            block = BLOCK.match(line)
            is_open = bool(block) and (" for " in line or bool(block[1] and block[2] == "trait"))
        function = FUNCTION.match(line)
        if function:
            header = [] if function[2] == "pub " or (function[1] and is_open) else None
        if header is None:
            continue
        header.append(line)
        has_clauses = any(CLAUSE.match(it) for it in header)
        if re.fullmatch(r" *\{\}?", line) or line.endswith(";") or (not has_clauses and line.endswith((" {", " {}"))):
            found.append(without_comments("\n".join(header), "//"))
            header = None
    return found


def contracts_sum(crate):
    """A checksum of what a crate promises: its public functions with their clauses, and its definitions that aren't private."""
    said = [(file, headers_of(read("crates", crate, "src", file))) for file in files_below(f"crates/{crate}/src", ".rt")]
    specs = files_below(f"crates/{crate}/specs", ".antt", APART)
    said += [(file, without_comments(read("crates", crate, "specs", file), "--")) for file in specs]
    return hashlib.sha256(repr(said).encode()).hexdigest()


def stamp_of(contracts, path):
    """A stamp of an edit and of its crate's contracts, of which this is the checksum."""
    return hashlib.sha256(repr((contracts, changes_of(path))).encode()).hexdigest()[:12]


def rows_of_page():
    """(what refused it, stamp) of each row of the page, by crate and edit."""
    rows, crate = {}, None
    if not os.path.isfile(os.path.join(ROOT, PAGE)):
        return rows
    for line in read(PAGE).split("\n"):
        if line.startswith("## "):
            crate = line[len("## ") :].strip()
        elif line.startswith("|") and crate:
            cells = [cell.strip() for cell in line.strip().strip("|").split(" | ")]
            if len(cells) == len(HEAD) and cells != HEAD and not set(cells[0]) <= set(":-"):
                rows[crate, cells[0]] = cells[1], cells[2].strip("`")
    return rows


INTRODUCTION = """# What refused each wrong body

`make edits` writes this page. A row has an edit, which is `crates/CRATE/must-fail/NAME.edit` or `tools/edits/CRATE/NAME.edit`; what
the prover said of the crate with this edit; and a stamp of the edit and of the crate's contracts at which it was tried: its public
functions with their clauses, and the definitions of `specs/` that aren't private. `tools/check_edits` fails where a stamp is another
one by now, so an edit is tried again when what it is to be refused by has changed. An edit without a row wasn't
tried yet: `tools/check_edits` counts these.

A cell `function: goal, ..` names the goals that were no longer proved: `returns-clause-NAME` is the clause NAME of that
function, and `CALL-requires` what a call of it needs. A cell that begins with `answer` says less: only a proof file that names what the
edit took away was refused, and no goal. Whether a contract refuses such a body was judged by reading it.
"""


def write_page(rows):
    """Writes the page with these rows."""
    lines = [INTRODUCTION]
    for crate in sorted({crate for crate, _ in rows}):
        lines += [f"## {crate}", "", f"| {' | '.join(HEAD)} |", "| --- | --- | --- |"]
        lines += [f"| {edit} | {said} | `{stamp}` |" for (of, edit), (said, stamp) in sorted(rows.items()) if of == crate]
        lines.append("")
    with open(os.path.join(ROOT, PAGE), "w", encoding="utf-8") as file:
        file.write("\n".join(lines))
