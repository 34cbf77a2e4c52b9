"""The committed list of mutants: a row each, with its result."""
import csv
from collections import Counter

from . import prover, sources

RESULTS = ("fact", "unfit", "accepted", "time")
# nth counts the mutants of an item that make the same change in a line of the same text: no number of a line, so that a row holds while other lines change
COLUMNS = ("crate", "file", "item", "kind", "nth", "old", "new", "result", "at", "line")
SAID = ("result", "at")  # what the prover said; the others name the mutant


class Row:
    def __init__(self, values):
        for name in COLUMNS:
            setattr(self, name, values.get(name, ""))

    def __str__(self):
        return f"{self.crate}/{self.item} {self.old!r} -> {self.new!r} in {self.line!r}" + (f", {self.nth}." if self.nth != "1" else "")

    def key(self):
        """What names the row's mutant."""
        return tuple(getattr(self, name) for name in COLUMNS if name not in SAID)

    def judge(self, bench, source, mutant, label):
        """Has the prover say what it makes of the row's mutant, in the copy of that label."""
        texts = source.changed(mutant)
        status, log = bench.run(label, texts)
        self.result, self.at = prover.sorted_out(status, log)
        if self.result == "accepted" and self.file.startswith("specs/"):
            self.result, self.at = bench.dependents(texts)
        bench.keep(self, log)


def rows_of(source, item):
    """Every mutant of an item with its row, in the order of their places."""
    found, times = [], Counter()
    for mutant in source.mutants(item):
        old = [shown(source.text[start:end]) for start, end, _ in mutant.edits]
        new = [shown(text) for _, _, text in mutant.edits]
        first = mutant.edits[0][0]
        line = source.text[source.text.rfind("\n", 0, first) + 1 : source.text.find("\n", first)].strip()
        row = Row({"crate": source.crate, "file": source.file, "item": item.name, "kind": mutant.kind, "line": line})
        row.old, row.new = " ; ".join(old), " ; ".join(new)
        times[row.key()] += 1
        row.nth = str(times[row.key()])
        found.append((row, mutant))
    return found


class Finder:
    """The mutants of listed rows, as the sources are now."""

    def __init__(self, root):
        self.root, self.files, self.mutants = root, {}, {}

    def find(self, row):
        """The source and the mutant of a row; None where what it changes is gone."""
        part = row.file.partition("/")[0]
        if (row.crate, part) not in self.files:
            made = sources.code if part == "src" else sources.definitions
            self.files[row.crate, part] = {source.file: source for source in made(self.root, row.crate)}
        source = self.files[row.crate, part].get(row.file)
        if source and (row.crate, row.file) not in self.mutants:
            every = [pair for item in source.items for pair in rows_of(source, item)]
            self.mutants[row.crate, row.file] = {found.key(): mutant for found, mutant in every}
        mutant = source and self.mutants[row.crate, row.file].get(row.key())
        return (source, mutant) if mutant else None


def shown(text):
    return " ".join(text.split())


def counts(rows):
    return Counter(row.result for row in rows)


def put(path, rows, crate):
    """Writes the rows of a crate, beside those that the file has of others."""
    kept = [row for row in read(path) if row.crate != crate] if path.exists() else []
    path.parent.mkdir(parents=True, exist_ok=True)
    write(path, sorted(kept + rows, key=lambda row: (row.crate, row.file)))


def write(path, rows):
    with path.open("w", newline="") as out:
        table = csv.writer(out, delimiter="\t", lineterminator="\n", quoting=csv.QUOTE_MINIMAL)
        table.writerow(COLUMNS)
        for row in rows:
            table.writerow([getattr(row, name) for name in COLUMNS])


def read(path):
    with path.open(newline="") as text:
        return [Row(values) for values in csv.DictReader(text, delimiter="\t")]
