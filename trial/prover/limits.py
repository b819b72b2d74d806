"""Low limits, that short units meet: the definitions with other numbers for 15 and 32, and nothing else changed."""
import re

# The same as Limits::LOW of oracle/src/limits.rs, which says why these.
LABELS, LOWEST, HIGHEST = 6, -12, 23

# Where each limit stands in the definitions, as a bound that is not reached itself. Only the number is changed: a
# planted fault may have changed how it is compared.
BOUNDS = [
    ("Code.antt", r"^(label_limit = )65536$", LABELS),
    ("Resolve.antt", r"^(in_range \(pos n\) = \w+ n )32768$", HIGHEST + 1),
    # negsuc n is -1 - n
    ("Resolve.antt", r"^(in_range \(negsuc n\) = \w+ n )32768$", -LOWEST),
]


def set_low(specs):
    """Puts the low limits into a copy of the definitions."""
    for file, place, bound in BOUNDS:
        path = specs / file
        text, count = re.subn(place, rf"\g<1>{bound}", path.read_text(), flags=re.MULTILINE)
        if count != 1:
            raise ValueError(f"{file} has {count} lines of the form {place}")
        path.write_text(text)
