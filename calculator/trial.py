"""Runs the program on decks, holds its output to the calculator's, and counts what was reached."""
import fcntl
import os
import subprocess
import sys
import tempfile
import termios
import time
from collections import Counter
from pathlib import Path

import calculator

PROGRAM = os.environ.get("JUTESCRAPER") or str(Path(__file__).resolve().parent.parent / "crates/jutescraper/out/jutescraper")
PATIENCE = 60                    # seconds after which a program that has not ended is ended
KEPT = 100                       # so many decks are kept, then only counted


def drive(deck):
    """What the program makes of a deck: status (None where it does not end), standard output, standard error."""
    try:
        done = subprocess.run([PROGRAM], input=deck, capture_output=True, close_fds=False, timeout=PATIENCE)
    except subprocess.TimeoutExpired:
        return None, b"", b"did not end"
    return done.returncode, done.stdout, done.stderr


def drive_in_pieces(deck, size):
    """The same, with the deck delivered bit by bit: the next piece comes when the program has read the last."""
    with subprocess.Popen([PROGRAM], stdin=subprocess.PIPE, stdout=subprocess.PIPE, stderr=subprocess.PIPE,
                          bufsize=0) as running:
        try:
            for i in range(0, len(deck), size):
                running.stdin.write(deck[i:i + size])
                for _ in range(100_000):             # but not for ever
                    if not int.from_bytes(fcntl.ioctl(running.stdin, termios.FIONREAD, bytes(4)), sys.byteorder):
                        break
                    os.sched_yield()
        except BrokenPipeError:                      # it has ended early; what it wrote will tell
            pass
        try:
            out, err = running.communicate(timeout=PATIENCE)
        except subprocess.TimeoutExpired:
            running.kill()
            return None, b"", b"did not end"
    return running.returncode, out, err


class Trial:
    """Runs decks one after another and keeps those that do not come out well."""

    def __init__(self, title):
        if not os.access(PROGRAM, os.X_OK):
            sys.exit(f"no program at {PROGRAM}: build it (rt run in crates/jutescraper) or name another in JUTESCRAPER")
        self.title, self.kept = title, None
        self.decks = self.bytes = self.written = self.abnormal = self.differ = 0
        self.refusals, self.ends, self.runs, self.shown = Counter(), Counter(), Counter(), Counter()
        self.sites = [Counter() for _ in range(6)]
        self.floors, self.modes = Counter(), Counter()
        self.began = time.monotonic_ns()

    def keep(self, deck, wanted, got, err, what):
        if self.kept is None:
            self.kept = Path(tempfile.mkdtemp(prefix=f"jutescraper-{self.title}-"))
        if self.abnormal + self.differ > KEPT:
            return
        name = self.kept / f"{self.decks}"
        for ending, content in ((".deck", deck), (".calculator", wanted), (".program", got), (".error", err)):
            name.with_suffix(ending).write_bytes(content)
        print(f"deck {self.decks} {what}: kept as {name}.deck, outputs beside it", flush=True)

    def take(self, deck, piece=0):
        """One deck: the program must end well and write what the calculator writes."""
        self.decks += 1
        self.bytes += len(deck)
        refusals, desk = calculator.work(deck)
        wanted = calculator.text(refusals, desk.sheet)
        status, got, err = drive_in_pieces(deck, piece) if piece else drive(deck)
        self.written += len(got)
        self.count(deck, refusals, desk)
        if status != 0 or err:
            self.abnormal += 1
            self.keep(deck, wanted, got, err, f"ended with status {status}, {len(err)} bytes on standard error")
        if got != wanted:
            self.differ += 1
            self.keep(deck, wanted, got, err, "differs")

    def count(self, deck, refusals, desk):
        self.refusals.update(number for _, number, _ in refusals)
        refused = {r for r, _, _ in refusals}
        for start in range(0, len(deck), calculator.RECORD):
            letter = deck[start]
            if letter in b"EC" and start // calculator.RECORD + 1 not in refused:
                self.runs["static" if letter == ord("E") else f"rule {deck[start + 1]}"] += 1
        sheet = desk.sheet
        self.ends[sheet.stage] += 1
        if sheet.stage != "draft":
            self.shown["with a negative force"] += any(force < 0 for _, _, force in sheet.storeys)
            self.shown["with a base of 0"] += sheet.storeys[0][1] == 0
            self.shown["scaled up to the code base shear"] += any(c != d for c, d, _ in sheet.storeys)
            self.floors[len(sheet.weights)] += 1
            if sheet.stage == "modal":
                self.modes[len(sheet.modes)] += 1
            for seen, value in zip(self.sites, desk.site):
                seen[value] += 1

    def report(self):
        def table(counter):
            return ", ".join(f"{key}: {counter[key]}" for key in sorted(counter)) or "none"

        print(f"refusals by number: {table(self.refusals)}")
        missing = [n for n in range(1, 25) if n != 18 and not self.refusals[n]]
        print("refusals not reached: " + (", ".join(map(str, missing)) if missing else "none of those a deck can cause"))
        print(f"forces at the end: static {self.ends['static']}, modal {self.ends['modal']}, none {self.ends['draft']}")
        print(f"among them: {table(self.shown)}")
        print(f"runs accepted: {table(self.runs)}")
        for name, seen in zip(("zone", "soil", "importance", "system", "formula", "plan"), self.sites):
            print(f"forces by {name}: {table(seen)}")
        print(f"forces by count of floors: {table(self.floors)}")
        print(f"modal forces by count of modes: {table(self.modes)}")
        tenths = (time.monotonic_ns() - self.began) // 10 ** 8
        print(f"{self.bytes} bytes of decks, {self.written} bytes written, {tenths // 10}.{tenths % 10} s")
