"""The proof of the program, by `rt run` in its crate's folder, and the proved program.

rt says when it begins with a crate, and how the proof ended; crates that stand proved it passes over. What it prints
goes to target/try.log. It ends by running the program, here on no input.
"""

import re
import subprocess
import time

from trying.children import CHILDREN, said, start
from trying.drawings import LINE, ROOT, Stop, shown, tell
from trying.engines import PROGRAM

TARGET = ROOT / "target"
LOG = TARGET / "try.log"
CRATE = ROOT / "crates" / PROGRAM
BUILT = CRATE / "out" / PROGRAM
DURATION = "which takes long the first time"

# in what rt prints: a crate that it begins with, and how its proof ended
BEGINS = r"rt: chose --jobs \d+ for (\w+)"
ENDS = r"(logic=proved|logic=not-proved|rt: the library \w+ did not build)\b.*"
STEP = re.compile(rf"^(?:{BEGINS}|{ENDS})\n", re.MULTILINE)


def reached():
    """The crates that are proved: the program, and all that it stands on."""
    needs = {}
    for line in (ROOT / "crates.txt").read_text(encoding="utf-8").splitlines():
        name, colon, words = line.partition("#")[0].partition(":")
        if colon:
            needs[name.split()[0]] = words.split()
    if PROGRAM not in needs:
        raise Stop(f"there is no crate {PROGRAM}; --reference asks tools/reference instead")
    found, open_ = set(), [PROGRAM]
    while open_:
        name = open_.pop()
        if name in needs and name not in found:
            found.add(name)
            open_ += needs[name]
    return found


def clock(seconds):
    minutes, rest = divmod(int(seconds), 60)
    return f"{minutes:2}:{rest:02}"


class Proof:
    """`rt run`, in the background."""

    def __init__(self):
        self.count = len(reached())
        self.heard = []  # the crates that have ended: when, the name, and the seconds, or None where it is not proved
        self.begun = None  # the crate that is being proved, and since when
        self.read = 0  # how much of the log was looked through
        self.since = time.monotonic()
        self.was_built = BUILT.exists()
        try:
            TARGET.mkdir(exist_ok=True)
            with LOG.open("w", encoding="utf-8") as log:
                self.rt = start(["rt", "run"], cwd=CRATE, stdout=subprocess.DEVNULL, stderr=log)
        except OSError as error:
            raise Stop(f"the proof cannot be started: {error}") from None

    def running(self):
        """Whether rt still runs. Hears of the crates that have ended since it was last asked."""
        runs = self.rt.poll() is None
        if not runs and self.rt in CHILDREN:
            CHILDREN.remove(self.rt)
        text = LOG.read_text(encoding="utf-8", errors="replace")
        now = time.monotonic()
        for step in STEP.finditer(text, self.read):
            self.read = step.end()
            name, ending = step.groups()
            if name:
                self.begun = name, now
            elif self.begun:
                crate, since = self.begun
                self.heard.append((now - self.since, crate, now - since if ending == "logic=proved" else None))
                self.begun = None
        return runs

    def proved(self):
        return not self.running() and self.rt.returncode == 0

    def up_to_date(self):
        """Whether nothing was left to prove. Else rt says soon which crate it begins with."""
        while self.was_built and self.running():
            if self.begun or self.heard:
                return False
            time.sleep(0.05)
        return self.was_built and self.proved() and not self.heard

    def follow(self):
        """Tells of each crate as it ends, until all are proved."""
        tell("the proof, with a line for each crate that is not proved yet, as it ends:")
        told, runs = 0, True
        while runs:
            runs = self.running()
            for at, crate, seconds in self.heard[told:]:
                told += 1
                words = "NOT PROVED" if seconds is None else f"{int(seconds):>4} s"
                tell(f"  {clock(at)}  crate {told:2}  {crate:<14} {words}")
                if seconds is None:
                    raise Stop(f"{crate} is not proved, so there is no proved program; the log is {shown(LOG)}")
            time.sleep(0.2 if runs else 0)
        if not self.proved():
            last = [line for line in LOG.read_text(errors="replace").splitlines() if line.startswith("rt: ")][-3:]
            raise Stop("\n".join(["there is no proved program; rt says:", *last, f"the log is {shown(LOG)}"]))
        tell(f"  {clock(time.monotonic() - self.since)}  all {self.count} proved\n")

    def ask(self, run):
        try:
            with run.input.open("rb") as data:
                _, text = said([BUILT], stdin=data)
        except OSError as error:
            raise Stop(f"the proved program cannot be run: {error}") from None
        if not LINE.fullmatch(text.strip()):
            raise Stop(f"the proved program says no line, but: {text.strip() or 'nothing'}")
        return text.strip()
