"""cspe run, explain and step: verdicts in words, live streams, and what is said of wrong input."""

import os
import pty
import random
import re
import shutil
import subprocess
import sys
import tempfile
import unittest
from pathlib import Path

from places import CSPE, EXAMPLES, ROOT, called, cspe, led, text_of
from commands.drawings import load
from commands.explain import stands
from commands.judging import Judge

PACKING = "packing_line"
SHARED = ["in each of them", "Left w", "Right w", "way 1", "Grader w", "way 2", "Grader w"]


class Run(unittest.TestCase):
    def test_verdicts(self):
        """Each verdict with its words and its exit status."""
        for words, status, line in [
            ("stamp left", 0, "running after 2 events; permitted next: stamp, crack\n"),
            ("0 3", 0, "running after 2 events; permitted next: stamp, crack\n"),
            ("stamp left left stamp", 1, "failed at event 3: left came; permitted: stamp, crack\n"),
        ]:
            self.assertEqual(cspe("run", PACKING, *words.split()), (status, line, ""), words)
        status, output, _ = cspe("run", "table_b", "0", "1", "3")
        self.assertEqual(status, 2)
        self.assertIn("refused 11 (strange event) at event 3: 3 is not in the alphabet", output)
        self.assertEqual(cspe("run", "worked/k5")[:2], (1, "failed at 0: this drawing permits no run at all\n"))
        status, output, _ = cspe("run", "--slots", "1", "worked/k8", "0", "0")
        self.assertEqual(status, 2)
        self.assertIn("refused 13 (crowded) at event 1", output)

    def test_examples(self):
        """The stored lines of examples/, but for the residuals: status and place."""
        words = {"running": 0, "failed": 1, "refused": 2}
        for file in sorted(EXAMPLES.glob("*.runs")):
            for line in file.read_text().splitlines():
                events, arrow, expected = line.partition("--")[0].partition("=>")
                if arrow:
                    status, output, errors = cspe("run", file.with_suffix(".csp"), *events.split())
                    verdict, first, _ = expected.split()
                    self.assertEqual((status, errors), (words[verdict], ""), (file, line))
                    if verdict == "failed":
                        self.assertIn(f"failed at event {first}:", output)

    def test_peak(self):
        output = cspe("run", "worked/k8", "0", "0", "--peak")[1]
        self.assertIn("peak 2: as many slots would have done", output)

    def test_file_and_raw(self):
        with tempfile.TemporaryDirectory() as folder:
            events = Path(folder) / "events"
            events.write_text("stamp\nleft -- a comment\n0 4\n")
            self.assertIn("running after 4 events", cspe("run", PACKING, f"@{events}")[1])
            events.write_bytes(bytes([0, 3, 0, 4]))
            self.assertIn("running after 4 events", cspe("run", PACKING, "--raw", f"@{events}")[1])
        self.assertIn("running after 2 events", cspe("run", PACKING, "-", "--raw", stdin="\0\3")[1])
        self.assertEqual(cspe("run", PACKING, "--raw", "stamp")[0], 3)

    def test_live(self):
        """A line of a stream is judged while the stream is open; a failure ends it."""
        command = [sys.executable, str(CSPE), "run", "--each", PACKING, "-"]
        with subprocess.Popen(command, stdin=subprocess.PIPE, stdout=subprocess.PIPE, text=True, cwd=ROOT) as live:
            self.assertIn("running after 0", live.stdout.readline())
            live.stdin.write("stamp\n")
            live.stdin.flush()
            self.assertIn("stamp: running after 1", live.stdout.readline())
            live.stdin.write("stamp\n")
            live.stdin.flush()
            self.assertIn("failed at event 2: stamp came; permitted: crack, left, right", live.stdout.readline())
            self.assertEqual(live.wait(20), 1)

    def test_nothing_is_lost(self):
        """What stands before a word that is no event is judged and told, wherever it comes from; a failure before it
        is the answer, and the word is not met any more."""
        permitted = "permitted next: stamp, crack\n"
        meant = "`stmp` is not the name of an event; is `stamp` meant?\n"
        failed = "failed at event 3: left came; permitted: stamp, crack\n"
        for events, status, line in [
            ("stamp left stmp right", 3, f"running after 2 events; {permitted}"),
            ("stmp", 3, f"running after 0 events; {permitted}"),
            ("stamp left left stmp", 1, failed),
        ]:
            with text_of(events, "events") as file:
                for words, stdin, place in [
                    (events.split(), "", ""),
                    (["-"], events, "standard input, line 1: "),
                    ([f"@{file}"], "", f"{file}, line 1: "),
                ]:
                    due = status, line, f"cspe: {place}{meant}" if status == 3 else ""
                    self.assertEqual(cspe("run", PACKING, *words, stdin=stdin), due)
                    found, output, errors = cspe("explain", PACKING, *words, stdin=stdin)
                    self.assertEqual((found, errors), (due[0], due[2]), words)
                    self.assertTrue(output.startswith(line), output)


class WrongUse(unittest.TestCase):
    def bad(self, status, message, *words, stdin=""):
        found, output, errors = cspe(*words, stdin=stdin)
        self.assertEqual((found, output), (status, ""), words)
        self.assertIn(message, errors)

    def faulty(self, message, file):
        """An error of a drawing: the answer of the commands that answer, an error of those that make something."""
        for command in ("run", "explain", "step", "check"):
            status, output, errors = cspe(command, file)
            self.assertEqual((status, errors), (2, ""), command)
            self.assertIn(message, output)
        for command in ("picture", "c"):
            self.bad(2, message, command, file)

    def test_messages(self):
        self.bad(3, "there is no drawing packing_lin; is packing_line meant?", "run", "packing_lin")
        self.bad(3, "tools is a directory", "run", "tools")
        self.assertIn("256 is no event: an event is one byte", cspe("run", PACKING, "256")[2])
        self.bad(3, "cannot read none: No such file", "run", PACKING, "@none")
        self.bad(3, "cannot read tools: Is a directory", "run", PACKING, "@tools")
        self.bad(3, "`frob` is no command", "frob")
        self.bad(3, "see cspe run --help", "run", "--frob")
        self.bad(3, "required: DRAWING; see cspe run --help", "run")
        self.bad(3, "`@none` stands alone: all events come from there", "run", PACKING, "@none", "stamp")
        self.bad(3, "`-` stands alone", "explain", PACKING, "stamp", "-")
        self.bad(3, "cannot both come from standard input", "run", "-", "-", stdin="alphabet 1\nP = STOP")
        self.bad(3, "the drawing is a file", "step", "-", stdin="alphabet 1\nP = STOP")
        self.bad(3, "there is no drawing without a name", "check", "")
        self.assertIn("cspe: `` is not the name of an event", cspe("run", PACKING, "")[2])
        for slots in ("0", "-1", "257"):
            self.bad(3, "--slots is 1 to 256", "run", "--slots", slots, PACKING)
        self.bad(3, "invalid int value", "explain", "--slots", "x", PACKING)
        self.bad(3, "cannot write tools: Is a directory", "c", PACKING, "-o", "tools")

    def test_errors_of_a_drawing(self):
        """Each kind of error, on the stream of the command's kind. A text of comments alone is empty too."""
        empty = "own.csp: error: The drawing is empty: it begins with `alphabet`, as in `alphabet stamp, left`.\n"
        with text_of("") as file:
            for text, message in [
                (b"", empty),
                (b"\n \n", empty),
                (b"-- a comment\n\n", empty),
                (b"alphabet 1\n\xff", ":2:1: error: Byte FF is not UTF-8 here."),
                (b"alphabet 1\nP = \x1b[2J\0", "    P = ?[2J?\n        ^"),  # no control signs on a terminal
                (b"alphabet a, a\nP = b -> Q\n", "own.csp: 3 errors\n"),
                (b"alphabet 1\nP = P\n", ":2:5: refused 7 (wrong reference): P calls itself before any event"),
            ]:
                file.write_bytes(text)
                self.faulty(message, file)
        status, output, errors = cspe("run", "-", stdin="P = STOP")
        self.assertEqual((status, errors), (2, ""))
        self.assertIn("-:1:1: error: A drawing begins with `alphabet`", output)

    def test_pipe_of_the_shell(self):
        """A drawing may be what a command writes, in bash `<(..)`."""
        command = f"{CSPE} check <(cat {EXAMPLES}/table_b.csp)"
        found = subprocess.run(["bash", "-c", command], capture_output=True, text=True, check=False)
        self.assertEqual((found.returncode, found.stdout[-10:], found.stderr), (0, ": no fault\n"[-10:], ""))

    def test_help(self):
        self.assertEqual(cspe("--help")[0], 0)
        self.assertEqual(cspe()[0], 3)
        for command in ("run", "explain", "step", "check", "picture", "c"):
            self.assertIn(command, cspe("--help")[1])
            status, output, errors = cspe(command, "--help")
            self.assertEqual((status, errors), (0, ""))
            self.assertIn("Exit status: 0", output)

    def test_no_library(self):
        with tempfile.TemporaryDirectory() as folder:
            tools = Path(folder) / "tools"
            for name in ("commands", "drawing"):
                shutil.copytree(ROOT / "tools" / name, tools / name)
            shutil.copy(CSPE, tools)
            with text_of("alphabet 1\nP = STOP\n") as own:
                found = subprocess.run([tools / "cspe", "run", own], capture_output=True, text=True, check=False)
        self.assertEqual((found.returncode, found.stdout), (3, ""))
        self.assertIn("the library is not built; `tools/build monitor_c` proves and builds it", found.stderr)

    def test_full_disk_and_closed_pipe(self):
        said = {"stdin": subprocess.DEVNULL, "stderr": subprocess.PIPE, "text": True, "check": False, "cwd": ROOT}
        for command in ("run", "explain", "step", "check", "picture", "c", "--help"):
            with open("/dev/full", "w") as full:
                found = subprocess.run([CSPE, command, PACKING], stdout=full, **said)
            self.assertEqual(found.returncode, 3, command)
            self.assertEqual(found.stderr, "cspe: standard output is not whole: No space left on device\n", command)
        self.bad(3, "cannot write /dev/full: No space left on device", "c", "table_b", "-o", "/dev/full")
        reader, writer = os.pipe()
        os.close(reader)
        try:
            found = subprocess.run([CSPE, "run", PACKING], stdout=writer, **said)
        finally:
            os.close(writer)
        self.assertEqual(found.returncode, 3)
        self.assertIn("standard output is not whole: nobody reads it any more", found.stderr)

    def test_closed_streams(self):
        """A message, where it can be written, and status 3, where a stream is needed that is closed or full."""
        closed = "cspe: standard output is closed\n"
        for command in ("run", "explain", "step", "check", "picture", "c", "--help"):
            self.assertEqual(led(">&-", command, PACKING), (3, "", closed), command)
        self.assertEqual(led(">&-", "run", "--help"), (3, "", closed))
        self.assertEqual(led(">/dev/full", "run", "--help")[0], 3)
        unread = "cspe: cannot read standard input: it is closed\n"
        for words in (["step", PACKING], ["run", PACKING, "-"], ["run", "--raw", PACKING, "-"], ["check", "-"]):
            found = led("<&-", *words)
            self.assertEqual((found[0], found[2]), (3, unread), words)
        self.assertEqual(led("<&-", "run", PACKING, "left")[0::2], (1, ""))
        self.assertEqual(led("2>&-", "run", PACKING, "left")[0], 1)  # nothing was to be said there
        for how in ("2>&-", "2>/dev/full", ">/dev/full 2>&1", "<&- >&- 2>&-"):
            self.assertEqual(led(how, "run", "none"), (3, "", ""), how)
        for how in (">/dev/full 2>&1", ">&- 2>&-", ">/dev/full 2>&-"):
            self.assertEqual(led(how, "run", PACKING, "stamp"), (3, "", ""), how)
        with text_of("alphabet 1\nP = P\n") as own:
            self.assertEqual(led("2>/dev/full", "c", own), (3, "", ""))  # its faults are lost

    def test_no_error_is_a_failure(self):
        """Whatever goes wrong within cspe: not status 1. Names that the terminal has no letters for are told."""
        with text_of("alphabet 1\nP = P -- \u00e9\n", "\u00e9.csp") as own:
            status, output, errors = called("check", own, env={**os.environ, "PYTHONIOENCODING": "ascii"})
        self.assertEqual((status, errors), (2, ""))
        self.assertIn("\\xe9.csp:2:5: refused 7", output)
        broken = "import runpy, sys; sys.argv = ['cspe', 'run', 'table_b']; import commands.run as run; run.load = None"
        command = [sys.executable, "-c", f"{broken}; runpy.run_path({str(CSPE)!r}, run_name='__main__')"]
        found = subprocess.run(command, cwd=ROOT / "tools", capture_output=True, text=True, check=False)
        self.assertEqual((found.returncode, found.stdout), (3, ""))
        self.assertIn("cspe: this is a fault of cspe itself: please report it\n", found.stderr)

    def test_an_output_that_cannot_be_written_is_as_before(self):
        with tempfile.TemporaryDirectory() as folder:
            file = Path(folder) / "kept.h"
            file.write_text("kept")
            with text_of("alphabet 1\nP = P\n") as own:
                self.assertEqual(cspe("c", own, "-o", file)[0], 2)
            self.assertEqual(file.read_text(), "kept")
            self.bad(3, "cannot write", "c", "table_b", "-o", Path(folder) / "none" / "x.h")


class Explain(unittest.TestCase):
    def test_failure(self):
        status, output, _ = cspe("explain", PACKING, "stamp", "left", "crack", "right")
        self.assertEqual(status, 1)
        for words in (
            "failed at event 4: right came; permitted: reject\n",
            "         4  right    <- not permitted\n",
            "     10 | Grader = stamp -> Stamped [] crack -> reject -> Grader\n"
            "        |                                       ^^^^^^ 10:39 Grader waits for reject\n",
            "^^^^^ 15:9 Right waits for right\n"
            "        |               right needs both sides of the parallel at 18:23; Grader does not take it\n",
        ):
            self.assertIn(words, output)

    def test_ways(self):
        """Each residual is a way; what a variable stands for; FAIL behind an event."""
        output = cspe("explain", "sent_lane", "send_1", "arrive_2")[1]
        self.assertIn("may stand in 2 ways just before it", output)
        self.assertEqual(output.count("Egg waits for arrive_1 (x is send_1)\n"), 1)
        self.assertIn("the ways differ only in which side of a parallel stands where", output)
        output = cspe("explain", PACKING, "stamp", "left", "left")[1]
        self.assertEqual(re.findall("in each of them|way .|Left w|Right w|Grader w", output), SHARED)
        output = cspe("explain", "interlock", "shut", "open", "down")[1]
        self.assertIn("Unlocked waits for down\n        |" + 35 * " " + "behind down all ways are FAIL\n", output)
        output = cspe("explain", "worked/k5")[1]
        self.assertIn("K5, the start, is doomed", output)

    def test_each_failure_has_its_reason(self):
        """Over random runs of the packing line: nobody waits for the event, or a line says what kept whoever does."""
        random.seed(24)
        drawing = load(PACKING)
        reasons = set()
        for _ in range(60):
            judge = Judge(drawing)
            while judge.status == 0:
                judge.take([random.randrange(7)] if random.random() < 0.2 else [random.choice(judge.monitor.offer())])
            told = "\n".join(stands(drawing, judge, False))
            name = drawing.name(judge.event)
            found = re.findall(f"none of them waits for {name}|{name} needs both sides of .*; .* not take it", told)
            self.assertGreaterEqual(len(found), 1, told)
            reasons.add(found[0])
        self.assertGreater(len(reasons), 6)

    def test_same_definition(self):
        """Across a parallel stands the same definition: it is told by its place; far right, words stand below."""
        output = cspe("explain", "two_keys", "pick_1", "key_a", "release_1")[1]
        self.assertIn("release_1 needs both sides of the parallel at 9:53; Release at 9:68 does not take it\n", output)
        self.assertIn(f"        |{'^^^^^':>73}\n        | 9:68 Release waits for key_b\n", output)

    def test_many_ways(self):
        with text_of("alphabet 1\nP = " + " [] ".join(["{0} -> STOP"] * 20)) as own:
            self.assertIn("and 8 ways more; --all shows them", cspe("explain", own)[1])
            self.assertIn("way 20", cspe("explain", own, "--all")[1])

    def test_long_run(self):
        output = cspe("explain", "table_b", "-", stdin="0 1\n" * 10 + "1\n")[1]
        self.assertIn("            .. 12 events before\n        13  0\n", output)
        self.assertIn("        21  1    <- not permitted\n", output)

    def test_refusal(self):
        with text_of("alphabet 1\nQ = {0} -> Q\nLine = Q ||| Q\n") as own:
            status, output, _ = cspe("explain", own)
        self.assertEqual(status, 2)
        self.assertIn(":3:8: refused 7 (wrong reference): Q is called under a parallel", output)
        mend = "give Line, the definition that calls it, a higher level: `level 1 Line = ..`"
        self.assertIn(f"to mend it: {mend}", output)


class Step(unittest.TestCase):
    def test_words(self):
        words = "stamp\nleft left undo frob\nwhere help again quit stamp\n"
        status, output, errors = cspe("step", PACKING, stdin=words)
        self.assertEqual(status, 3)  # for `frob`, though events follow
        self.assertEqual(cspe("step", PACKING, stdin=words.replace("frob", ""))[0], 0)
        lines = output.splitlines()
        self.assertEqual(lines[0], "running after 0 events; permitted next: stamp, crack")
        self.assertEqual(lines[3], "failed at event 3: left came; permitted: stamp, crack; not taken")
        self.assertEqual(lines[4], "undo: running after 1 event; permitted next: crack, left, right")
        self.assertIn("Stamped waits for left, right", output)
        self.assertIn("takes back the last event", output)
        self.assertTrue(output.endswith("running after 0 events; permitted next: stamp, crack\n"))
        self.assertIn("`frob` is not the name of an event", errors)

    def test_status(self):
        self.assertEqual(cspe("step", "table_b", stdin="0 0")[0], 1)
        self.assertEqual(cspe("step", "table_b", stdin="0 3")[0], 2)
        self.assertEqual(cspe("step", "table_b", stdin="0 0 1")[0], 0)
        self.assertIn("nothing to take back", cspe("step", "table_b", stdin="undo")[1])

    def test_a_terminal(self):
        """By hand a word that is none is told, and another is typed: it does not move the exit status."""
        ours, theirs = pty.openpty()
        how = {"stdin": theirs, "stdout": subprocess.PIPE, "stderr": subprocess.PIPE, "text": True, "cwd": ROOT}
        with subprocess.Popen([CSPE, "step", PACKING], **how) as live:
            os.write(ours, b"frob\nquit\n")
            output, errors = live.communicate(timeout=20)
        os.close(ours)
        os.close(theirs)
        self.assertEqual(live.returncode, 0)
        self.assertIn("`frob` is not the name of an event", errors)
        self.assertTrue(output.endswith("\n> > "), output)

    def test_an_event_with_a_command_s_name(self):
        with text_of("alphabet undo\nP = undo -> P\n") as own:
            output = cspe("step", own, stdin="undo undo :undo")[1]
        self.assertTrue(output.endswith("undo: running after 1 event; permitted next: undo\n"))
        self.assertIn("undo: running after 2 events", output)


if __name__ == "__main__":
    unittest.main()
