"""Trying one change: in a copy of the repository the change is made, the crate is checked over its incremental folder, and the file is put
back."""

import hashlib
import os
import re
import shutil
import signal
import subprocess
import time
from dataclasses import dataclass
from pathlib import Path

import sources
import verdicts

SECONDS_FOR_CHECK = 300
SECONDS_FOR_UNCHANGED = 1800
# What `rt` makes in a crate's folder: a copy has its own.
MADE = "out"


class Broken(Exception):
    """The prover, or the repository, is not as it has to be; the trials cannot go on."""


@dataclass(frozen=True)
class Trial:
    verdict: str
    seconds: float
    # The line of the prover's answer that decided.
    line: str


def users_of(number, crate, root):
    """The library crates that name a number of `crate`, in the order of crates.txt. One of a struct is named by the struct."""
    named = re.compile(rf"\b{number}\b" if "::" in number else rf"\b{crate}::(?:\w+::)*{number}\b")
    result = []
    for other in sources.library_crates(root):
        texts = (file.read_text() for file in (root / "crates" / other / "src").glob("*.rt"))
        if other != crate and any(named.search(text) for text in texts):
            result.append(other)
    return result


class Copy:
    """A copy of the repository in which one change at a time is tried."""

    def __init__(self, folder, root=sources.ROOT):
        self.root = root
        self.folder = folder
        self.checked = set()
        self.running = None
        self._make()

    def _make(self):
        """Copies the sources; what `rt` made in the copy in an earlier run stays."""
        self.folder.mkdir(parents=True, exist_ok=True)
        for old in (self.folder / "crates").glob("*/*"):
            if old.name != MADE:
                shutil.rmtree(old) if old.is_dir() else old.unlink()
        shutil.copytree(self.root / "crates", self.folder / "crates", ignore=shutil.ignore_patterns(MADE), dirs_exist_ok=True)
        shutil.copy(self.root / "crates.txt", self.folder / "crates.txt")

    def check(self, crate, seconds=SECONDS_FOR_CHECK):
        """What `rt check` says of a crate: its exit status (none where the time was over) and its words."""
        words = ["rt", "check", "--jobs", "1"]
        self.running = subprocess.Popen(
            words,
            cwd=self.folder / "crates" / crate,
            stdout=subprocess.PIPE,
            stderr=subprocess.STDOUT,
            text=True,
            errors="replace",
            start_new_session=True,
        )
        try:
            said, _ = self.running.communicate(timeout=seconds)
            return self.running.returncode, said
        except subprocess.TimeoutExpired:
            self.stop()
            return None, ""
        finally:
            self.running = None

    def stop(self):
        """Ends the check that runs, with all that it started."""
        running = self.running
        if running is not None and running.poll() is None:
            os.killpg(running.pid, signal.SIGKILL)
            running.wait()

    def check_unchanged(self, crate):
        """The crate as it stands has to be proved, before its first change and after each."""
        status, said = self.check(crate, SECONDS_FOR_UNCHANGED)
        if status != 0:
            raise Broken(f"{crate} is not proved as it stands; `rt check {crate}` says why\n{said[-2000:]}")
        self.checked.add(crate)

    def try_change(self, change):
        """Makes the change, has it judged, and puts the file back."""
        if change.crate not in self.checked:
            self.check_unchanged(change.crate)
        file = self.folder / change.file.relative_to(self.root)
        text = file.read_text()
        began = time.monotonic()
        try:
            file.write_text(change.applied(text))
            verdict, line = self.judged(change)
        finally:
            file.write_text(text)
        return Trial(verdict, time.monotonic() - began, self.relative(line))

    def judged(self, change):
        """The crate's own check decides. A public number is seen by other crates, so where its own crate is proved, those that name it are
        asked too, up to the first that refuses. What survived is checked once more from nothing."""
        asked = [change.crate] + (users_of(change.owner, change.crate, self.folder) if change.public_number else [])
        for crate in asked:
            verdict, line = self.judged_crate(crate, change)
            if verdict != verdicts.SURVIVED:
                return verdict, line
        shutil.rmtree(self.folder / "crates" / change.crate / MADE)
        return self.judged_crate(change.crate, change)

    def judged_crate(self, crate, change):
        status, said = self.check(crate)
        self.keep(change, said)
        return verdicts.judge(status, said, self.is_walk)

    def keep(self, change, said):
        """Keeps the prover's words on a change, for a reader."""
        name = hashlib.sha256("\t".join(change.key).encode()).hexdigest()[:12]
        folder = self.folder.parent / "said"
        folder.mkdir(exist_ok=True)
        (folder / f"{change.crate}-{name}.txt").write_text("\n".join(change.key) + "\n\n" + said)

    @staticmethod
    def is_walk(proof):
        """Whether a proof file walks its function by hand: all others of a function cite its `Tie`."""
        return proof.endswith("/Proof.antt") and ".Tie" not in Path(proof).read_text()

    def relative(self, line):
        return line.replace(str(self.folder) + "/", "")
