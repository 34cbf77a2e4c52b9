"""Runs the prover over a changed copy of a crate, and sorts what it says."""
import itertools
import os
import re
import shutil
import signal
import subprocess
import tempfile
import time
from pathlib import Path

# The proof file names a part that isn't asked for, or one that is asked for stands elsewhere.
UNFIT = re.compile(
    r"has no `[^`]*` that can be named (?:from )?here|this pattern needs a function|expected type `goal\.[^`]*`, but this has type `goal\."
    r"|is not a field of record|has no field|is not in scope(?! here, so what is shown)|is not a constructor"
    r"|explicit arguments? but the patterns? give|too many arguments for this constructor|is written too late: constructor"
)
# Follows from another error.
WAKE = re.compile(r"was not admitted|so this cannot be checked")


class Limits:
    def __init__(self, seconds, mebibytes):
        self.seconds, self.mebibytes = seconds, mebibytes


def behind(root, crate):
    """The crates that depend on one, in order."""
    found = []
    for line in (root / "crates.txt").read_text().splitlines():
        name, _, deps = line.partition(":")
        if crate in deps.split() or set(found) & set(deps.split()):
            found.append(name.split()[0])
    return found


def copied(root, place):
    """A copy of the repository's crates, without what rt made of them."""
    place.mkdir(parents=True)
    shutil.copytree(root / "crates", place / "crates", ignore=shutil.ignore_patterns("out"))
    shutil.copy(root / "crates.txt", place)


def resident(session):
    """The mebibytes of a session's processes."""
    pages = 0
    for stat in Path("/proc").glob("[0-9]*/stat"):
        try:
            if int(stat.read_text().rpartition(")")[2].split()[3]) == session:
                pages += int((stat.parent / "statm").read_text().split()[1])
        except (OSError, IndexError):
            continue
    return pages * os.sysconf("SC_PAGE_SIZE") // 1048576


def checked(folder, limits):
    """The exit status and output of the check of a crate's folder; the status is None where it passed a limit."""
    log = folder / ".log"
    with log.open("wb") as out:
        run = subprocess.Popen(["rt", "check", "--jobs", "1"], cwd=folder, stdout=out, stderr=subprocess.STDOUT, start_new_session=True)
        end = time.monotonic() + limits.seconds
        while run.poll() is None:
            if time.monotonic() > end or resident(run.pid) > limits.mebibytes:
                os.killpg(run.pid, signal.SIGKILL)
                run.wait()
                return None, log.read_text(errors="replace")
            time.sleep(0.2)
    return run.returncode, log.read_text(errors="replace")


def errors_of(log):
    """The errors that don't follow from another, and blanks that nothing fills, each (file, what is refused, message)."""
    found = []
    for m in re.finditer(r"^(?:\./)?(\S+?):\d+:\d+: (?:error: |unsolved \?\d+ in )(.*(?:\n  .*)*)", log, re.M):
        if not WAKE.search(m.group(2)):
            found.append((m.group(1), (re.match(r"`([^`]*)`", m.group(2)) or [None, ""])[1], m.group(2)))
    return found


def sorted_out(status, log):
    """The result of a check, and the first part that it refused."""
    if status is None:
        return "time", ""
    if status == 0:
        return "accepted", ""
    found = errors_of(log)
    if "logic=not-proved" not in log or any(file.startswith(("specs/", "src/")) for file, _, _ in found):
        return "ill", ""
    # a function with no proof file: the prover's own search doesn't show a part of it
    found += [("search", part, "") for part in re.findall(r"^note: \S+: it is not proved that .*\(`([^`]*)`\)", log, re.M)]
    unfit = any(UNFIT.search(message) for _, _, message in found)
    first = next((f"{file} {part}".strip() for file, part, message in found if UNFIT.search(message) or not unfit), "")
    return "unfit" if unfit else "fact", first


class Bench:
    """Changed copies of the repository, in which one crate is proved; a check begins with what earlier ones of the same crate kept."""

    def __init__(self, root, crate, work, limits, logs=None):
        self.root, self.crate, self.work, self.limits, self.logs = root, crate, work / crate, limits, logs
        self.numbers = itertools.count()

    def stands(self):
        """Stops where the crate isn't proved as it stands: every mutant would be refused."""
        status, log = self.run("unchanged", {})
        if status != 0:
            raise SystemExit(f"{self.crate} isn't proved as it stands:\n{log[-2000:]}")

    def folder(self, label):
        """A copy of the repository, made once for each label."""
        place = self.work / label
        if not place.exists():
            copied(self.root, place)
        return place

    def run(self, label, texts):
        """What the prover says where files of the repository have these texts: its status and output."""
        place = self.folder(label)
        own = f"crates/{self.crate}/"
        files = {place / file: text for file, text in texts.items() if file.startswith(own)}
        before = {file: file.read_text() for file in files}
        for file, text in files.items():
            file.write_text(text)
        status, log = checked(place / own, self.limits)
        for file, text in before.items():
            file.write_text(text)
        return status, log.replace(f"{place}/", "")

    def dependents(self, texts):
        """What the crates that depend on this one say of a changed definition, which it proves itself."""
        with tempfile.TemporaryDirectory() as folder:
            place = Path(folder) / "copy"
            copied(self.root, place)
            for file, text in texts.items():
                (place / file).write_text(text)
            for crate in behind(self.root, self.crate):
                status, log = checked(place / "crates" / crate, self.limits)
                if status != 0:
                    result, at = sorted_out(status, log)
                    # definitions that no longer fit together say as little as a proof that doesn't fit
                    return ("unfit" if result == "ill" else result), f"{crate}: {at}"
        return "accepted", ""

    def keep(self, row, log):
        """Keeps what the prover said, where a folder for it was named."""
        if self.logs and row.result != "ill":
            self.logs.mkdir(parents=True, exist_ok=True)
            (self.logs / f"{self.crate}.{next(self.numbers):04}.{row.result}.log").write_text(f"{row}\n{log}")

    def forget(self, label):
        """Removes what a label has: an item's mutants share one, since each checks the same parts again."""
        shutil.rmtree(self.work / label, ignore_errors=True)
