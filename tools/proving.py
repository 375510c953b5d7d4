"""Has the prover check functions of a crate, in a copy of it, over the libraries below as they were built, and reads what it says."""

import os
import re
import shutil
import subprocess

import wrong_bodies as bodies
from wrong_bodies import FUNCTION, ROOT

PARTS = ("src", "specs", "proofs")
CONSTANT = re.compile(r"(?:pub(?:\(\w+\))? )?(?:const|static) (\w+)\b")
# what the prover says at a place: an error, or a goal that it didn't prove
IS_OPEN = "it is not proved that"
SAID = re.compile(r"(?:note: )?(?:\./)?(\S+?):(\d+):\d+: (?:error: )?(.*)")
ANSWERS = re.compile(r"proofs/(.*)/(?:Answers|Invariants|Proof)\.antt")
# what a file of proofs is refused for where it names what an edit took away, or cites what was refused for that
NAMES = re.compile(r"has no field|is not in scope|has no `|was not admitted|is no name")
RENAMED = re.compile(r"Goals` has no `([^`]+)`")
LIMITS = re.compile(r"antt ran out of|outgrew the memory limit|stopped at the step limit")
LAW = "law"


class Kit:
    """The prover, and what it is told of a crate, as rt tells it."""

    def __init__(self, libraries):
        command = shutil.which("rt")
        if not command:
            raise SystemExit("the command rt is not on the PATH")
        self.folder = os.path.dirname(os.path.dirname(os.path.realpath(command)))
        self.libraries = libraries
        lines = [line.partition("#")[0].partition(":") for line in bodies.read("crates.txt").split("\n")]
        self.uses = {name.split()[0]: uses.split() for name, _, uses in lines if name.split()}

    def rlib(self, crate):
        return os.path.join(self.libraries, "crates", crate, "out", "rlib", f"{crate}.rlib")

    def below(self, crate):
        """The crates of this repository below a crate."""
        found = {}
        for used in self.uses[crate]:
            if used in self.uses:
                found.update({**self.below(used), used: None})
        return found

    def missing(self, crate):
        """The libraries below a crate that aren't built."""
        return [used for used in self.below(crate) if not os.path.isfile(os.path.join(self.rlib(used), "format"))]

    def words(self, crate):
        rlibs = os.path.join(self.folder, "rlibs")
        words = [os.path.join(self.folder, "bin", "rattle"), "check", "--crate-name", crate, "src/lib.rt"]
        for used in ["std", *(it for it in self.uses[crate] if it != "std")]:
            words += ["--extern", f"{used}={self.rlib(used) if used in self.uses else os.path.join(rlibs, used + '.rlib')}"]
        for folder in [rlibs, *(os.path.dirname(self.rlib(used)) for used in self.below(crate))]:
            words += ["-L", f"dependency={folder}"]
        words += ["--antt-project", os.path.join(self.folder, "rattle", "logic", "antt-project.json")]
        return words + ["--logic-built", os.path.join(self.folder, "logic_built"), "--links", f"{crate}=", "--jobs", "1"]


class Function:
    """A function of a file: the path, or the end of it, by which the prover knows it, and the lines where its header begins and its body
    begins and ends."""

    def __init__(self, path, indent, begin):
        self.path, self.indent, self.begin = path, indent, begin
        self.body = self.end = None

    def read(self, number, line):
        """Takes the next line. rt fmt sees to it that a body begins on a line of its own where there are clauses, and ends at its indent."""
        if self.body is None and (re.fullmatch(r" *\{\}?", line) or line.endswith((" {", " {}"))) and not bodies.CLAUSE.match(line):
            self.body = number
        if re.fullmatch(" " * self.indent + r"(\}|\{\})", line) or line.endswith(" {}") or (self.indent and line.startswith("}")):
            self.end = number


def owner_of(line):
    """The name by which the prover calls an impl's methods: the type's, and behind it the trait's and of what it is one."""
    block = re.match(r"impl(?:<(?:[^<>]|<[^<>]*>)*>)? (?:(\w+)(?:<(\w*)(?:[^<>]|<[^<>]*>)*>)? for )?(\w+)", line)
    if block:
        return "".join(filter(None, (block[3], block[1], block[2])))
    trait = re.match(r"(?:pub )?trait (\w+)", line)
    return trait[1] if trait else ""


def functions_of(file, text):
    """The functions of a file of src/."""
    module = re.sub(r"^src/|/mod\.rt$|\.rt$", "", file).replace("/", "::")
    module = "" if module == "lib" else module
    found, owner = [], ""
    for number, line in enumerate(text.split("\n")):
        if line and line[0] not in " }/#)":
            owner = owner_of(line)
        header = FUNCTION.match(line)
        if header and len(header[1]) <= 4:
            # a method's whole path has the module of its type, which may be another one
            path = [owner if header[1] else module, header[3]]
            found.append(Function("::".join(filter(None, path)), len(header[1]), number))
        if found and found[-1].end is None:
            found[-1].read(number, line)
    return found


def function_at(functions, number):
    """The function that has this line, or None."""
    return next((it for it in reversed(functions) if it.begin <= number and (it.end is None or number <= it.end)), None)


def constant_at(lines, number):
    """The constant of the item that this line is in, or None."""
    while number >= 0:
        if lines[number] and lines[number][0] not in " })/#]":
            constant = CONSTANT.match(lines[number])
            return constant and constant[1]
        number -= 1
    return None


def users_of(crate, constant):
    """The paths of a crate's functions that name a constant."""
    found = set()
    for file in bodies.files_below(f"crates/{crate}/src", ".rt"):
        lines = bodies.read("crates", crate, "src", file).split("\n")
        for it in functions_of(f"src/{file}", "\n".join(lines)):
            if re.search(rf"\b{constant}\b", "\n".join(lines[it.begin : (it.end or it.begin) + 1])):
                found.add(it.path)
    return found


class Room:
    """A copy of a crate, and what the prover keeps of its checks."""

    def __init__(self, kit, crate, folder):
        self.kit, self.crate, self.folder, self.kept = kit, crate, folder, f"{folder}.kept"
        os.makedirs(self.kept, exist_ok=True)
        shutil.rmtree(folder, ignore_errors=True)
        for part in PARTS:
            source = os.path.join(ROOT, "crates", crate, part)
            if os.path.isdir(source):
                shutil.copytree(source, os.path.join(folder, part))

    def write(self, texts):
        for path, text in texts.items():
            with open(os.path.join(self.folder, path), "w", encoding="utf-8") as file:
                file.write(text)

    def check(self, texts, paths, running):
        """What the prover says of these functions, or of all where none is named, with these texts in the place of the crate's own."""
        words = self.kit.words(self.crate) + ["--incremental", self.kept] + [it for path in paths for it in ("--only", path)]
        how = {"cwd": self.folder, "stdin": subprocess.DEVNULL, "stdout": subprocess.PIPE, "stderr": subprocess.STDOUT}
        self.write(texts)
        try:
            with subprocess.Popen(words, text=True, errors="replace", start_new_session=True, **how) as run:
                running.add(run)
                said, _ = run.communicate()
                running.discard(run)
        finally:
            self.write({path: bodies.read("crates", self.crate, path) for path in texts})
        return Answer(self.crate, run.returncode, said.split("\n"), texts)


class Refusal:
    """An error, or a goal that is open, of a function. `lost` is the goal that an answer is for, where there is none of that name."""

    def __init__(self, function, goal, is_open=False, is_name=False, lost=None):
        self.function, self.goal, self.is_open, self.is_name, self.lost = function, goal, is_open, is_name, lost

    def is_of(self, paths):
        return any(f"::{path}::" in f"::{self.function}::" for path in paths)


class Answer:
    """What the prover said of a check: its status, why it judged nothing, and what it refused."""

    def __init__(self, crate, status, lines, texts):
        self.crate, self.status, self.lines, self.texts, self.why, self.refusals = crate, status, lines, texts, "", []
        for line in lines:
            said = SAID.match(line)
            if said and (": error: " in line or IS_OPEN in line):
                self.read(said[1], int(said[2]) - 1, said[3])
        if (status == 1 and not self.refusals and not self.why) or any(re.search(r"\berror\[[\w-]+\]", line) for line in lines):
            self.why = next((line for line in lines if re.search(r"error|rattle: ", line)), f"it ended with status {status}")
        self.is_at_limit = status != 0 and any(LIMITS.search(line) for line in lines)

    def read(self, file, number, said):
        """Takes what was said at a line of a file."""
        goal = re.search(r"\(`([^`]+)`\)", said) if IS_OPEN in said else re.match(r"`([^`]*)`", said)
        goal = goal[1] if goal else re.sub(r"[|`]", " ", said[:60])
        if file.startswith("proofs/"):
            answers, lost = ANSWERS.match(file), RENAMED.search(said)
            path = answers[1].replace("/fn/", "/").replace("/", "::") if answers else LAW
            function = re.sub(r"^(?:[a-z_0-9]+::)+(?=[A-Z])", "", path)
            self.refusals.append(Refusal(function, goal, is_name=bool(NAMES.search(said)), lost=lost and lost[1]))
        elif IS_OPEN in said:
            text = self.texts[file] if file in self.texts else bodies.read("crates", self.crate, file)
            functions = functions_of(file, text)
            # what is said at a function's attribute stands before it
            function = function_at(functions, number) or next((it for it in functions if it.begin > number), None)
            self.refusals.append(Refusal(function.path if function else LAW, goal, is_open=True))
        else:
            self.why = f"the prover can't read it: {said}"

    def of(self, paths=()):
        """What refused these functions, or any where none is named, as a row says it; None where nothing did."""
        them = [it for it in self.refusals if not paths or it.is_of(paths)]
        # an answer for a goal that has another name by now leaves that one open, which says nothing of it
        unanswered = {kind_of(it.lost) for it in them if it.lost}
        by_goal = [it for it in them if not it.is_name and not (it.is_open and kind_of(it.goal) in unanswered)]
        shown = {}
        for it in by_goal or them:
            shown.setdefault(it.function, {})[it.goal] = None
        refused = "; ".join(f"{function}: {', '.join(list(goals)[:3])}" for function, goals in list(shown.items())[:2])
        if not refused:
            return "a limit of the prover" if self.is_at_limit else None
        return refused if by_goal else f"{bodies.BY_ANSWER} {refused}"


def kind_of(goal):
    """What of a goal's name stays where a body has other branches: the clause, or the kind of goal."""
    if "-clause-" in goal:
        return goal.rpartition("-clause-")[2]
    kind = re.match(r"returns|.*?-requires", goal)
    return kind[0] if kind else re.split(r"-(?:in|then|else)\b", goal)[0]
