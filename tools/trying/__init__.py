"""What tools/try is made of.

    drawings    a drawing, its runs, and how an answer is shown
    children    the processes that are started, and their end
    engines     who answers before the program is proved: the program's own code, or tools/reference
    proof       the proof of the program, crate by crate, and the proved program
"""
