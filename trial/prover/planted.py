"""Faults to plant: old and new texts of files."""


class Fault:
    def __init__(self, name):
        self.name = name
        # each is a file, an old text and a new one
        self.edits = []
        # what the trial that finds it is told besides
        self.words = []

    def plant(self, folder):
        for file, old, new in self.edits:
            path = folder / file
            text = path.read_text()
            if text.count(old) != 1:
                raise ValueError(f"{self.name}: the old text stands {text.count(old)} times in {file}: {old}")
            path.write_text(text.replace(old, new))


def read_faults(text):
    """A line 'fault NAME', perhaps 'with:', then 'file:', and 'old:' and 'new:' in turn; other lines go on with the text before them."""
    faults, file = [], None
    for line in text.splitlines():
        word, _, rest = line.partition(" ")
        if word == "fault":
            faults.append(Fault(rest))
        elif word == "with:":
            faults[-1].words = rest.split()
        elif word == "file:":
            file = rest
        elif word == "old:":
            faults[-1].edits.append([file, rest, None])
        elif word == "new:":
            faults[-1].edits[-1][2] = rest
        elif line and not line.startswith("#"):
            edit = faults[-1].edits[-1]
            edit[1 if edit[2] is None else 2] += "\n" + line
    return faults
