"""The text notation of CSP_E tables and their bytes, both ways.

    source      a text, its tokens, and problems with their place
    foreign     signs and words of other notations, and how they are written here
    syntax      the tree of a drawing
    cursor      a place among the tokens
    parse       text to tree
    names       what the names of a drawing stand for
    assemble    tree to the table's numbers, each with its place in the text
    disassemble table bytes to tree
    write       tree to text
    numbers     the written form of a number
    standard    the standard streams, also where they are closed or full
"""

import sys

# A term may nest MOST_DEPTH deep (`syntax`); the parser takes five calls for each parenthesis.
sys.setrecursionlimit(max(sys.getrecursionlimit(), 5000))
