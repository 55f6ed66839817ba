"""Tables that tools/reference wrote, with its answers.

    accepted    the bytes of the accepted tables of some test data
    refused     the bytes of Read's refused inputs
"""

import functools
import subprocess

from notation.numbers import written
from places import REFERENCE, ROOT

FILE = ROOT / "crates" / "table_test" / "data" / "tables.txt"


def stored():
    return FILE.read_text()


def drawn(seed, count):
    """Test data drawn at random anew."""
    command = [str(REFERENCE), "cases", "--seed", str(seed), "--count", str(count)]
    return subprocess.run(command, check=True, capture_output=True, text=True).stdout


@functools.lru_cache(maxsize=None)
def cases(data):
    """The letter, the input's words and the answer's number of each case that is not stored wrong on purpose."""
    found = set()
    for line in data.partition("\n# wrong ")[0].split("\n"):
        if line[:1] in ("r", "w", "c"):
            before, answer = line.split(" =")
            found.add((line[0], before.split(" :")[1], int(answer.split()[0])))
    return found


def accepted(data):
    found = {table_of(letter, words) for letter, words, answer in cases(data) if answer == 0}
    return sorted(found)


def refused(data):
    found = {words for letter, words, answer in cases(data) if letter == "r" and answer != 0}
    return sorted(map(bytes_of, found))


def table_of(letter, words):
    """The bytes of a case's input: Read's own, or those that its numbers are written in."""
    if letter == "r":
        return bytes_of(words)
    return b"".join(written(int(word)) for word in words.split())


def bytes_of(words):
    return bytes(map(int, words.split()))
