"""Answers as theorems of the definitions, and what the prover says of them."""
import re
import shutil
import subprocess
from pathlib import Path

from .units import LABELLED, STAGE, TRIAL

DEFINITIONS = TRIAL.parent / "crates" / "definitions"
THEOREMS_PER_MODULE = 100

# Examples.antt is left out: it has a theorem of its own, which a planted fault would break first.
LEFT_OUT = "Examples"

# What the oracle prints of labelled code, as a value; the printed stage is one already (Printed).
ASKED = """\
-- The labelled instructions, their virtual size and the marks of the labels, as the oracle prints them.
use Rattle.std.specs.Prelude.{ℕ, List, length, ℤ, pos}
use Rattle.definitions.specs.Answer.{Result, made, refusal}
use Rattle.definitions.specs.Code.{State}
use Rattle.definitions.specs.Stage.{Line, lines_from}

pub data Labelled : Type 0 where
  labels : (count total : ℕ) → List Line → (marks : List ℕ) → Labelled
  refuses : (number place extra : ℕ) → Labelled

unfoldable pub as_labelled : Result State → Labelled
as_labelled (made l) = labels (length l.instrs) l.offset (lines_from pos 0 l.instrs) l.marks
as_labelled (refusal n p x) = refuses n p x

-- a printed line
abbrev pub i : (start tag small : ℕ) → (first second : ℤ) → (line flags value : ℕ) → Line
i o t m d e l f v = record { start = o; tag = t; small = m; first = d; second = e; line = l; flags = f; value = v }
"""

IMPORTS = """\
use Rattle.std.specs.Prelude.{ℕ, ◌≡◌, refl, List, [], ◌∷◌, ℤ, pos, negsuc}
use Rattle.trial.specs.Asked.{labels, refuses, as_labelled, i}
"""

# The question of each kind of answer, and the constructors of its reply: code and refused.
QUESTIONS = {STAGE: "printed (stage {})", LABELLED: "as_labelled (labelled {})"}
CODE = {STAGE: "code", LABELLED: "labels"}
REFUSED = {STAGE: "refused_with", LABELLED: "refuses"}
CITED = {"Stage": ["code", "refused_with", "labelled"]}


class ProverFailed(Exception):
    """The prover said something else than which theorems fail."""


# 1. Terms

def integer(word):
    n = int(word)
    return f"(pos {n})" if n >= 0 else f"(negsuc {-n - 1})"


def record(line):
    """A record as printed: start, tag, small, first, second, line, flags, value."""
    start, tag, small, first, second, number, flags, value = line.split()
    return f"i {start} 0x{tag} {small} {integer(first)} {integer(second)} {number} {flags} 0x{value}"


def listed(terms):
    return "(" + " ∷ ".join([*terms, "[]"]) + ")"


def split_marks(lines):
    """Labelled lines are the records', then `labels N`, then N marks."""
    at = next(n for n, line in enumerate(lines) if line.startswith("labels "))
    records, marks = lines[:at], lines[at + 1:]
    if len(marks) != int(lines[at].split()[1]):
        raise ValueError("not as many marks as labels")
    return records, marks


def reply(kind, lines):
    """The term of an answer."""
    words = lines[0].split()
    if words[0] == "refused":
        return " ".join([REFUSED[kind], *words[1:]])
    records, marks = (lines[1:], None) if kind == STAGE else split_marks(lines[1:])
    term = f"{CODE[kind]} {words[1]} {words[2]} {listed(map(record, records))}"
    return term if marks is None else f"{term} {listed(marks)}"


def theorem(name, unit, kind, unfolding):
    """A theorem that the definitions answer so; the unit is written as a list of its bytes."""
    question = QUESTIONS[kind].format(listed(map(str, bytes.fromhex(unit.hex))))
    return f"pub {name} : {question} ≡ {reply(kind, unit.answers[kind])}\nunfolding {unfolding}\n{name} = refl\n"


# 2. What of the definitions is to be computed

UNFOLDABLE = re.compile(r"^unfoldable (?:pub|mutual\n(?:  --.*\n)*  pub) (\S+) :", re.MULTILINE)


def unfoldable_names(specs):
    """For each module of the definitions, what its functions are called; one of a mutual block stands for all."""
    names = {path.stem: UNFOLDABLE.findall(path.read_text()) for path in sorted(specs.glob("*.antt"))}
    return {module: found for module, found in names.items() if found}


def heading(names):
    """The `use` lines of a module of theorems."""
    uses = [f"use Rattle.definitions.specs.{module}.{{{', '.join(found + CITED.get(module, []))}}}\n"
            for module, found in names.items()]
    return IMPORTS + "".join(uses)


def theorems_text(part, names):
    """A module with a theorem for each entry: its name, and the unit and the kind of answer that it is about."""
    unfolding = " ".join(["as_labelled", *(name for found in names.values() for name in found)])
    return "\n".join([heading(names), *(theorem(name, *asked, unfolding) for name, asked in part)])


def parts(entries, size):
    return [entries[first:first + size] for first in range(0, len(entries), size)]


# 3. A scratch repository

def copy_definitions(folder, definitions):
    """A copy of the definitions as a library of the scratch repository."""
    crate = folder / "crates" / "definitions"
    shutil.copytree(definitions / "src", crate / "src")
    shutil.copytree(definitions / "specs", crate / "specs", ignore=shutil.ignore_patterns(f"{LEFT_OUT}.antt"))
    root = crate / "specs" / "Lib.antt"
    root.write_text(root.read_text().replace(f"pub mod {LEFT_OUT}\n", ""))
    return crate / "specs"


class Scratch:
    """A repository in a folder of its own: the definitions, and a crate `trial` for the theorems."""

    def __init__(self, folder, definitions=DEFINITIONS):
        self.folder = Path(folder)
        self.definitions = copy_definitions(self.folder, definitions)
        self.crate = self.folder / "crates" / "trial"
        (self.folder / "crates.txt").write_text("definitions:\ntrial: definitions\n")
        (self.crate / "src").mkdir(parents=True)
        (self.crate / "src" / "lib.rt").write_text("// Only theorems, in specs/.\n")

    def prove(self, crate):
        """Runs the prover on a crate and what it depends on: whether all is proved, and what it says."""
        ran = subprocess.run(["rt", "check", "--jobs", "1"], cwd=self.folder / "crates" / crate, stdout=subprocess.PIPE,
                             stderr=subprocess.STDOUT, check=False)
        return ran.returncode == 0, ran.stdout.decode(errors="replace")

    def write_theorems(self, units):
        """The modules of the crate `trial`. Gives what each theorem is about: a unit and a kind of answer."""
        about = {f"{kind}{number}": (unit, kind) for number, unit in enumerate(units) for kind in unit.answers}
        names = unfoldable_names(self.definitions)
        modules = {"Asked": ASKED}
        for number, part in enumerate(parts(list(about.items()), THEOREMS_PER_MODULE)):
            modules[f"Answers{number}"] = theorems_text(part, names)
        modules["Lib"] = "".join(f"pub mod {module}\n" for module in modules)
        self.write_specs(modules)
        return about

    def write_specs(self, modules):
        specs = self.crate / "specs"
        shutil.rmtree(specs, ignore_errors=True)
        specs.mkdir()
        for module, text in modules.items():
            (specs / f"{module}.antt").write_text(text)

    def compare(self, units):
        """The theorems that fail, and those too long to compute: each its unit, its kind of answer, what the prover says."""
        proved, said = self.prove("definitions")
        if not proved:
            raise ProverFailed(said)
        about = self.write_theorems(units)
        proved, said = self.prove("trial")
        failed = failed_theorems(said)
        if proved == bool(failed) or any(name not in about for name in failed):
            raise ProverFailed(said)
        differing = [(*about[name], message) for name, message in failed.items() if MISMATCH in message]
        stopped = [(*about[name], message) for name, message in failed.items() if STEP_LIMIT in message]
        if len(differing) + len(stopped) != len(failed):
            raise ProverFailed(said)
        return differing, stopped


# 4. What the prover says

# what it says where the two sides of an equation differ, and how it begins to say in what
MISMATCH = "but this has type"
COMPUTED = "computed as far as they go"

# and where it stopped computing
STEP_LIMIT = "stopped at the step limit"

ERROR = re.compile(r"^.*\.antt:\d+:\d+: error: (?:`(\w+)`: )?(.*)$")


def failed_theorems(said):
    """The theorems that are refused, with what is said of each."""
    failed, name = {}, None
    for line in said.splitlines():
        error = ERROR.match(line)
        if error:
            name = error[1] or line
            failed[name] = error[2]
        elif line.startswith("  ") and name:
            failed[name] += " " + line.strip()
        else:
            name = None
    return failed
