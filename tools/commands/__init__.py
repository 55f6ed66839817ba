"""What tools/cspe is made of.

    library     the proved library, by ctypes: the only place that calls it
    drawings    a drawing and its events by name; errors
    terms       where a term of the table stands in the drawing; what a residual waits for
    explore     the residual sets that are reached
    rules       the rules of a table, every fault with its place and how to mend it
    levels      the levels that the calls of a drawing allow
    mending     the faults of a drawing beside the proved reader, and the levels that would mend them
    streams     events from arguments, files and live streams; output that is whole or not at all
    words       verdicts and refusals in words

and a module for each command: run, explain, step, check, picture, c.
"""

import sys
from pathlib import Path

TOOLS = Path(__file__).resolve().parent.parent
ROOT = TOOLS.parent
sys.path.insert(0, str(TOOLS / "drawing"))
