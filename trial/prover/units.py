"""Units with their answers, in the form that the oracle prints."""
import subprocess
from pathlib import Path

TRIAL = Path(__file__).resolve().parent.parent
PROGRAMS = TRIAL / "target" / "release"

STAGE, LABELLED = "stage", "labelled"


class Unit:
    """A unit, and for each kind of answer its lines."""

    def __init__(self, name, hex_bytes):
        self.name = name
        self.hex = hex_bytes
        self.answers = {}

    @property
    def size(self):
        return len(self.hex) // 2

    @property
    def outcome(self):
        """code, refused with its number, or panic"""
        words = next(iter(self.answers.values()))[0].split()
        if words[0] == "refused":
            return f"refused {words[1]}"
        return "panic" if words[0] == "panic" else "code"


def read(text):
    """The units of a text in the oracle's form."""
    units, lines = [], []
    for line in text.splitlines():
        if line.startswith("unit "):
            words = line.split()
            units.append(Unit(words[1], words[2] if len(words) > 2 else ""))
        elif line in (STAGE, LABELLED):
            lines = units[-1].answers.setdefault(line, [])
        elif line and not line.startswith("#"):
            lines.append(line)
    return units


def from_file(path):
    return read(Path(path).read_text())


def random_units(size, seed, count, low_limits):
    """Random units with the oracle's answers."""
    subprocess.run([TRIAL / "build"], check=True)
    hexes = subprocess.run([PROGRAMS / "generate", size, seed, count], stdout=subprocess.PIPE, check=True).stdout
    # a panic's own message goes to standard error: the answer says all that is needed
    command = [PROGRAMS / "oracle", "both", *(["--low-limits"] if low_limits else [])]
    answers = subprocess.run(command, input=hexes, stdout=subprocess.PIPE, stderr=subprocess.DEVNULL, check=True).stdout
    return read(answers.decode())


# What a command line names

def add_arguments(parser):
    parser.add_argument("units", nargs="+", help="a file in the oracle's form; or small, medium or big, a seed and a count")
    parser.add_argument("--named", nargs="+", metavar="NAME", help="take these units only; a random unit's name is its number")
    parser.add_argument("--low-limits", action="store_true", help="with limits that short units meet, as a file's answers then are")
    parser.add_argument("--longest", type=int, default=500, metavar="BYTES", help="leave out longer units (%(default)s)")


def given(options):
    """The units of a file, or of a size, a seed and a count; those that are named."""
    units = random_units(*options.units, options.low_limits) if len(options.units) == 3 else from_file(*options.units)
    return [unit for unit in units if not options.named or unit.name in options.named]


def distinct(units):
    """Each unit once, unless its answers are others."""
    return list({(unit.hex, str(unit.answers)): unit for unit in units}.values())


def comparable(units, longest):
    """Those that can be compared: not longer, and the assembler does not panic."""
    return [unit for unit in units if unit.size <= longest and unit.outcome != "panic"]
