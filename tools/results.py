"""What the trials of changes gave: the file of results, a line for each change, and the report in Markdown."""

import threading
from dataclasses import astuple, dataclass, fields

import verdicts


@dataclass(frozen=True)
class Row:
    crate: str
    owner: str
    kind: str
    place: str
    before: str
    after: str
    verdict: str
    seconds: str
    line: str

    @property
    def key(self):
        return (self.crate, self.owner, self.kind, self.place, self.before, self.after)


HEAD = "\t".join(field.name for field in fields(Row))

COLUMNS = (verdicts.AT_A_FACT, verdicts.BOTH, verdicts.NO_LONGER_FITS, verdicts.SURVIVED)
# These are neither refused nor survived for a reason that is known.
NO_VERDICT = (verdicts.OUT_OF_TIME, verdicts.COULD_NOT_TELL, verdicts.UNKNOWN)


class Table:
    """The rows of a run, and those of the run that it goes on with."""

    def __init__(self, name, goes_on):
        self.name = name
        self.rows = []
        self.known = {}
        self.lock = threading.Lock()
        if goes_on:
            self._read()

    def _read(self):
        with open(self.name, encoding="utf-8") as file:
            lines = file.read().splitlines()
        for line in lines[1:]:
            parts = line.split("\t")
            row = Row(*parts) if len(parts) == len(fields(Row)) else None
            if row and row.verdict not in NO_VERDICT:
                self.known[row.key] = row

    def _write(self, line):
        with open(self.name, "a", encoding="utf-8") as file:
            if file.tell() == 0:
                file.write(HEAD + "\n")
            file.write(line + "\n")

    def add(self, change, trial):
        """The row of a trial, written to the file at once."""
        line = " ".join(trial.line.split())[:1000]
        row = Row(*change.key, trial.verdict, f"{trial.seconds:.1f}", line)
        if self.name:
            with self.lock:
                self._write("\t".join(astuple(row)))
        return row


def counts(rows):
    every = [len(rows)] + [sum(row.verdict == column for row in rows) for column in COLUMNS]
    return every + [sum(row.verdict in NO_VERDICT for row in rows)]


def table_line(cells):
    return "| " + " | ".join(str(cell) for cell in cells) + " |"


def code(text):
    """Text in Markdown as code, also where it has backquotes."""
    return f"`` {text} ``" if "`" in text else f"`{text}`"


def listed(title, rows, with_line=False):
    if not rows:
        return
    print(f"\n{title}\n")
    for row in rows:
        words = f"- {row.place}, {row.owner}, {row.kind}: {code(row.before)} to {code(row.after)}"
        if row.verdict in NO_VERDICT:
            words += f" ({row.verdict})"
        print(words + (f": {code(row.line)}" if with_line and row.line else ""))


def table(title, rows, tried, of):
    """Prints a line for each value that `of` gives, and one for all."""
    print(table_line([title, "changes", *COLUMNS, "no verdict"]))
    print(table_line(["---"] + ["---:"] * (len(COLUMNS) + 2)))
    for name in sorted({of(row) for row in rows}):
        print(table_line([name, *counts([row for row in tried if of(row) == name])]))
    print(table_line(["all", *counts(tried)]))


def report(rows):
    """Prints a table by crate and one by kind of change, and the changes that want a look."""
    rows = sorted(rows, key=lambda row: row.key)
    tried = [row for row in rows if row.verdict != verdicts.NO_PROGRAM]
    table("crate", rows, tried, lambda row: row.crate)
    print()
    table("kind of change", rows, tried, lambda row: row.kind)
    print(f"\n{len(rows) - len(tried)} more were drawn that are no program.")
    for verdict in (verdicts.SURVIVED, verdicts.NO_LONGER_FITS):
        listed(f"{verdict[0].upper()}{verdict[1:]}:", [row for row in tried if row.verdict == verdict])
    listed("No verdict:", [row for row in tried if row.verdict in NO_VERDICT], with_line=True)
