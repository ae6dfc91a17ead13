#!/usr/bin/env python3
"""The program `listing` between other programs: what it could not read or write is told on standard error, nothing is lost or left unanswered.

    hosts/listing.py [--stub]

It is target/bin/listing, or the program that UPPINALO_LISTING names. With --stub the second program stands in its place, which reads its input
to the end before it answers, and nothing is tried. What each line prints is not asked here: hosts/compare does that.
"""
import fcntl
import os
import pathlib
import pty
import random
import select
import signal
import subprocess
import sys
import threading
import time
import tty
import unittest

ROOT = pathlib.Path(__file__).resolve().parent.parent
PROGRAM = os.environ.get("UPPINALO_LISTING", str(ROOT / "target/bin/listing"))
PRELOAD = ROOT / "target/interrupted.so"
CHUNK = 65536  # what the program reads at most at once
SECONDS = 20  # after which a program that should have answered has not
PAUSE = 0.3  # a while in which it has nothing to read, or may not write

LINES = [
    b"standard|days since 1582-10-04|1",
    b"julian|days since 1900-02-29|0",
    b"noleap|days since 1900-02-29|0",
    b"|seconds since 1970-01-01|x3f80000000000000",
    b"",
    b"no bars",
    b"x" * 255,
    b"x" * 256,
    b"y" * 3000,
]
ASKED = LINES[0] + b"\n"
ANSWER = b"1582-10-15T00:00:00.000000Z\n"
ANSWERS = {}  # what the program answers to each of the lines, alone in its input


def run(given, **words):
    """Runs the program to its end on an input: its outputs."""
    done = subprocess.run([PROGRAM], input=given, capture_output=True, timeout=SECONDS, check=False, **words)
    return done.stdout, done.stderr.decode()


def run_in_shell(redirections, given=b""):
    """The same with redirections of a shell."""
    command = ["sh", "-c", f'exec "$0" {redirections}', PROGRAM]
    done = subprocess.run(command, input=given, capture_output=True, timeout=SECONDS, check=False)
    return done.stdout, done.stderr.decode()


def run_with(fault, given):
    """The same over a `read` and a `write` that have a fault."""
    return run(given, env={**os.environ, "LD_PRELOAD": str(PRELOAD), "LISTING_FAULT": fault})


def setUpModule():
    command = ["gcc", "-std=c11", "-Wall", "-Wextra", "-Werror", "-shared", "-fPIC", "-o", PRELOAD, ROOT / "hosts/interrupted.c"]
    subprocess.run(command, check=True)
    ANSWERS.update({line: run(line + b"\n")[0] for line in LINES})


def many_lines(count):
    """Lines by chance, and the answers to them."""
    chosen = random.Random(1).choices(LINES, k=count)
    return b"".join(line + b"\n" for line in chosen), b"".join(ANSWERS[line] for line in chosen)


def whole_reads(reads):
    """Lines that are the bytes of so many full reads, and the answers to them."""
    count, rest = divmod(reads * CHUNK, len(ASKED))
    return ASKED * count + b"\n" * rest, ANSWER * count + ANSWERS[b""] * rest


class Child:
    """The program while it runs, with pipes on its three sides."""

    def __init__(self, **sides):
        pipe = subprocess.PIPE
        self.process = subprocess.Popen([PROGRAM], bufsize=0, **{"stdin": pipe, "stdout": pipe, "stderr": pipe, **sides})

    def __enter__(self):
        return self

    def __exit__(self, *_):
        self.process.kill()
        self.process.communicate()

    def send(self, *pieces):
        for piece in pieces:
            self.process.stdin.write(piece)

    def answers(self, count):
        """Its next lines, that many, for which it is waited."""
        return read_lines(self.process.stdout.fileno(), count)

    def answers_to(self, pieces, count):
        """The same while the pieces are sent, which may be more than pipes hold."""
        sender = threading.Thread(target=self.send, args=pieces, daemon=True)
        sender.start()
        output = self.answers(count)
        sender.join(SECONDS)
        return output

    def end(self):
        """What else it writes once its input has ended."""
        output, errors = self.process.communicate(timeout=SECONDS)
        return output, errors.decode()


def read_lines(fd, count):
    parts = []
    while count > 0:
        part = os.read(fd, CHUNK) if select.select([fd], [], [], SECONDS)[0] else b""
        if not part:
            raise TimeoutError(f"{count} lines more were awaited after {b''.join(parts)[-100:]}")
        parts.append(part)
        count -= part.count(b"\n")
    return b"".join(parts)


class Failures(unittest.TestCase):
    """What cannot be read or written is told, with the system's reason."""

    def test_full_device(self):
        told = "listing: standard output: No space left on device\n"
        for given in [ASKED, LINES[0], many_lines(100_000)[0]]:
            self.assertEqual(run_in_shell(">/dev/full", given), (b"", told))

    def test_directory(self):
        self.assertEqual(run_in_shell("</"), (b"", "listing: standard input: Is a directory\n"))

    def test_closed_input(self):
        self.assertEqual(run_in_shell("<&-"), (b"", "listing: standard input: Bad file descriptor\n"))

    def test_closed_output(self):
        self.assertEqual(run_in_shell(">&-", ASKED), (b"", "listing: standard output: Bad file descriptor\n"))

    def test_reader_gone(self):
        """Where the signal is ignored that would end the program, the write fails."""
        reader, writer = os.pipe()
        os.close(reader)
        done = subprocess.run(
            [PROGRAM], input=ASKED, stdout=writer, stderr=subprocess.PIPE, restore_signals=False, timeout=SECONDS, check=False
        )
        os.close(writer)
        self.assertEqual(signal.getsignal(signal.SIGPIPE), signal.SIG_IGN)
        self.assertEqual(done.stderr, b"listing: standard output: Broken pipe\n")

    def test_line_cut_off(self):
        """The input fails in the middle of a line: a terminal whose other side is closed. The lines before are answered."""
        master, slave = pty.openpty()
        tty.setraw(slave)
        with Child(stdin=master) as child:
            os.write(slave, ASKED + b"noleap|days si")
            self.assertEqual(child.answers(1), ANSWER)
            os.close(slave)
            self.assertEqual(child.end(), (b"", "listing: standard input: Input/output error\n"))
        os.close(master)

    def test_nothing_taken(self):
        self.assertEqual(run_with("nothing", ASKED), (b"", "listing: standard output: Nothing was taken\n"))

    def test_status(self):
        """The exit status is 1 after a failure, also where it cannot be told."""
        for redirections, status in [(">/dev/full", 1), ("</", 1), ("</ 2>&-", 1), (">/dev/null", 0)]:
            command = ["sh", "-c", f'exec "$0" {redirections}', PROGRAM]
            done = subprocess.run(command, input=ASKED, capture_output=True, timeout=SECONDS, check=False)
            self.assertEqual(done.returncode, status, redirections)


class Pauses(unittest.TestCase):
    """Who sends lines and waits gets the answers to all of them, while the input stays open."""

    def test_one_by_one(self):
        with Child() as child:
            for line in LINES:
                child.send(line + b"\n")
                self.assertEqual(child.answers(1), ANSWERS[line])
            self.assertEqual(child.end(), (b"", ""))

    def test_lines_and_a_half(self):
        with Child() as child:
            child.send(ASKED * 3 + ASKED[:10])
            self.assertEqual(child.answers(3), ANSWER * 3)
            child.send(ASKED[10:])
            self.assertEqual(child.answers(1), ANSWER)
            child.send(ASKED[:-1])
            self.assertEqual(child.end(), (ANSWER, ""))

    def test_full_read(self):
        """The input holds exactly what one read takes, before the program starts."""
        given, expected = whole_reads(1)
        reader, writer = os.pipe()
        self.assertEqual(os.write(writer, given), CHUNK)
        with Child(stdin=reader) as child:
            os.close(reader)
            self.assertTrue(child.answers(expected.count(b"\n")) == expected)
            os.write(writer, ASKED)
            self.assertEqual(child.answers(1), ANSWER)
            os.close(writer)
            self.assertEqual(child.end(), (b"", ""))

    def test_full_reads(self):
        given, expected = whole_reads(4)
        with Child() as child:
            self.assertTrue(child.answers_to([given], expected.count(b"\n")) == expected)
            self.assertEqual(child.end(), (b"", ""))


class Waiting(unittest.TestCase):
    """A read or a write that would have had to wait, or was interrupted, is tried again."""

    def test_empty_input(self):
        reader, writer = os.pipe()
        os.set_blocking(reader, False)
        with Child(stdin=reader) as child:
            os.close(reader)
            for part in [ASKED, ASKED[:10], ASKED[10:]]:
                time.sleep(PAUSE)
                self.assertIsNone(child.process.poll())
                os.write(writer, part)
            self.assertEqual(child.answers(2), ANSWER * 2)
            os.close(writer)
            self.assertEqual(child.end(), (b"", ""))

    def test_full_output(self):
        """The pipe takes a page at a time, and for a while nothing."""
        given, expected = many_lines(20_000)
        reader, writer = os.pipe()
        fcntl.fcntl(writer, fcntl.F_SETPIPE_SZ, 4096)
        os.set_blocking(writer, False)
        with Child(stdout=writer) as child:
            os.close(writer)
            sender = threading.Thread(target=child.send, args=[given], daemon=True)
            sender.start()
            time.sleep(PAUSE)
            self.assertIsNone(child.process.poll())
            self.assertTrue(read_lines(reader, expected.count(b"\n")) == expected)
            sender.join(SECONDS)
            self.assertEqual(child.end(), (None, ""))
            self.assertEqual(os.read(reader, 1), b"")
        os.close(reader)

    def test_interrupted(self):
        given, expected = many_lines(2000)
        self.assertTrue(run_with("interrupted", given) == (expected, ""))


class Pieces(unittest.TestCase):
    """However the input is cut into reads, the output is that of its lines."""

    def test_at_once(self):
        given, expected = many_lines(300_000)
        self.assertTrue(run(given) == (expected, ""))

    def test_in_pieces(self):
        given, expected = many_lines(5000)
        sizes = random.Random(2)
        pieces = []
        while given:
            size = sizes.choice([1, 2, 7, 100, 4096])
            pieces.append(given[:size])
            given = given[size:]
        with Child() as child:
            self.assertTrue(child.answers_to(pieces, expected.count(b"\n")) == expected)
            self.assertEqual(child.end(), (b"", ""))


if sys.argv[1:] == ["--stub"]:
    print("listing: not tried with the second program in its place")
else:
    unittest.main()
