"""The proved library, by ctypes. Nothing else in tools/cspe calls it.

    library     loads it, as a shared object of shared.c over crates/monitor_c/out/libmonitor_c.a
    Monitor     a monitor of a table: fed, asked what it permits, looked into, saved and restored
    most_events the largest alphabet that the reader takes

Where the library's operations change, include/cspe.h changes, and nothing here: sizes come from there, and how a node
word is laid out is read off a residual that is known.
"""

import ctypes
import functools
import os
import shutil
import subprocess
import tempfile
from pathlib import Path
from typing import NamedTuple

from . import ROOT
from .drawings import Stop
from notation.numbers import MOST_NUMBER, written

HERE = Path(__file__).resolve().parent
INSTALLED = HERE.parent / "libcspe.so"
ARCHIVE = ROOT / "crates" / "monitor_c" / "out" / "libmonitor_c.a"
BUILT = ROOT / "target" / "cspe" / "libcspe.so"
SOURCES = [HERE / "shared.c", ROOT / "include" / "cspe.h", ROOT / "include" / "cspe_monitor.h"]
MEMORY = 4  # 01, "Residuals": "Memory is four events"
CONSTANTS = "size slots slot_words record_words offer_words table_bytes version".split()
WORD = ctypes.c_uint64


class Refusal(NamedTuple):
    number: int
    place: int


class Node(NamedTuple):
    """A node of a residual: its term's number, and the events that it remembers, the nearest first."""

    term: int
    memory: tuple


def build(archive, output):
    """Makes the shared object of an archive."""
    compiler = os.environ.get("CC") or shutil.which("cc") or shutil.which("gcc") or shutil.which("clang")
    if not compiler:
        raise Stop("a C compiler is needed once, to load the library: there is no cc")
    output.parent.mkdir(parents=True, exist_ok=True)
    with tempfile.TemporaryDirectory(dir=output.parent) as folder:
        made = Path(folder) / output.name
        command = [compiler, "-std=c99", "-O2", "-shared", "-fPIC", f"-I{ROOT / 'include'}", "-o", made, SOURCES[0]]
        found = subprocess.run([*command, archive], capture_output=True, text=True, check=False)
        if found.returncode != 0:
            raise Stop(f"the library cannot be loaded; {compiler} says:\n{found.stderr.strip()}")
        made.replace(output)


def shared_object():
    if INSTALLED.exists():
        return INSTALLED
    if not ARCHIVE.exists():
        raise Stop("the library is not built; `tools/build monitor_c` proves and builds it (some minutes, once)")
    newest = max(file.stat().st_mtime for file in [ARCHIVE, *SOURCES])
    if not BUILT.exists() or BUILT.stat().st_mtime < newest:
        build(ARCHIVE, BUILT)
    return BUILT


@functools.lru_cache(maxsize=None)
def library():
    try:
        loaded = ctypes.CDLL(str(shared_object()))
    except OSError as error:
        raise Stop(f"the library cannot be loaded: {error}") from None
    for name in ("people_constant", "people_place", "people_failed_at", "people_taken", "people_peak"):
        getattr(loaded, name).restype = WORD
    loaded.people_view.restype = ctypes.c_size_t
    for place, name in enumerate(CONSTANTS):
        setattr(loaded, name, loaded.people_constant(place))
    return loaded


class Monitor:
    """The monitor of a table's bytes. `refusal` says whether the table was refused."""

    def __init__(self, table, slots=None):
        self.library = library()
        self.state = ctypes.create_string_buffer(self.library.size)
        slots = self.library.slots if slots is None else slots
        self.refusal = self.refused(
            self.library.people_open(self.state, bytes(table), ctypes.c_size_t(len(table)), ctypes.c_size_t(slots))
        )

    def refused(self, number):
        return Refusal(number, self.library.people_place(self.state)) if number else None

    def feed(self, events):
        """Takes events; the refusal of one, whose place is how many were taken before it, or None."""
        return self.refused(self.library.people_feed(self.state, bytes(events), ctypes.c_size_t(len(events))))

    def feed_closely(self, events):
        """As `feed`, but stops before the event that is not permitted: a refusal, and how many were taken."""
        before = self.save()
        refusal = self.feed(events)
        taken = refusal.place if refusal else len(events)
        if before[0] and not self.running():
            taken = self.failed_at() - 1 - before[2]
            self.restore(before)
            self.feed(events[:taken])
            refusal = None
        return refusal, taken

    def offer(self):
        """The events that may come next, ascending."""
        bits = (WORD * self.library.offer_words)()
        self.library.people_offer(self.state, bits)
        return [at * 64 + e for at, word in enumerate(bits) for e in range(64) if word >> e & 1]

    def running(self):
        return bool(self.library.people_running(self.state))

    def failed_at(self):
        return self.library.people_failed_at(self.state)

    def taken(self):
        return self.library.people_taken(self.state)

    def peak(self):
        return self.library.people_peak(self.state)

    def slots(self):
        words = (WORD * (self.library.slots * self.library.slot_words))()
        return list(words[: self.library.people_view(self.state, words)])

    def residuals(self):
        """Of each residual held its nodes, a parallel before its sides."""
        words, each, bits = self.slots(), self.library.slot_words, digit_bits()
        found = [words[at + 1 : at + 1 + words[at]] for at in range(0, len(words), each)]
        return [[node(word, bits) for word in slot] for slot in found]

    def save(self):
        record = (WORD * self.library.record_words)()
        self.library.people_record(self.state, record)
        return self.running(), tuple(record), self.taken(), tuple(self.slots())

    def restore(self, saved):
        _, record, _, slots = saved
        self.library.people_restore(
            self.state,
            (WORD * len(record))(*record),
            (WORD * max(1, len(slots)))(*slots),
            ctypes.c_size_t(len(slots)),
        )


def node(word, bits):
    memory = tuple(word >> bits * (MEMORY - 1 - k) & (1 << bits) - 1 for k in range(MEMORY))
    return Node(word >> bits * MEMORY, memory)


@functools.lru_cache(maxsize=None)
def digit_bits():
    """How many bits an event has in a node word: after event 0 of `a -> a -> STOP` the word is term 1 alone."""
    monitor = Monitor(bytes([1, 1, 0, 1, 0, 1, 0, 2, 0, 2, 0, 0]))
    monitor.feed(b"\0")
    return (monitor.slots()[1].bit_length() - 1) // MEMORY


@functools.lru_cache(maxsize=None)
def most_events():
    least, above = 1, MOST_NUMBER + 1
    while above - least > 1:
        middle = (least + above) // 2
        taken = Monitor(written(middle) + bytes([0, 1, 0, 0])).refusal is None
        least, above = (middle, above) if taken else (least, middle)
    return least
