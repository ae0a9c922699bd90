"""Fuzzing that is led by coverage, of scripts in Python: bench/fuzz runs it in a process of its own for each target.

A target is a module of this folder, with these names:

- `begin(folder, keep)`: makes what the runs need in a folder of the target's own, and gives the inputs to begin with; the other
  folder is kept between runs
- `FILES`: the scripts whose coverage leads
- `run(octets)`: runs the script in this process on an input, raises `Wrong` where the script did what it must never do, and gives
  further signs of what was reached (a set of any values); any other exception is one that the script should have caught
- `change(octets, other, random)`: an input made of one or two others, where the target knows their form
- `whole(octets)`: the same as `run` with the script as a process of its own; it is tried on inputs that reached something new

An input counts as new where it runs two lines one behind the other that none ran so before, or as often (once, to 3, to 7, more), or
where it gives a new sign. What is new is kept, and changed further.
"""
import hashlib
import importlib
import os
import pathlib
import random
import signal
import subprocess
import sys
import tempfile
import threading
import traceback

# How many octets an input has, unless its target says otherwise, and how many seconds of processor it may take.
MOST, SLOW = 20_000, 20
NUMBERS = (0, 1, 2, 127, 128, 255, 256, 4095, 65535, 65536, 2**31 - 1, 2**31, 2**32 - 1, 2**63, 2**64 - 1, 2**64)


class Wrong(Exception):
    """The script did what it must never do; what stands before the colon says what kind of thing that is."""


class TooLong(BaseException):
    """A run took more processor time than any should."""


class Coverage:
    """Which lines of some files run one behind the other, and how often."""

    def __init__(self, files):
        self.files, self.counts = {str(file) for file in files}, {}

    def __call__(self, frame, _event, _value):
        name = frame.f_code.co_filename
        if name not in self.files:
            return None
        last, counts = -frame.f_code.co_firstlineno, self.counts

        def local(frame, event, _value):
            nonlocal last
            pair = name, last, frame.f_lineno if event != "exception" else 0
            counts[pair] = counts.get(pair, 0) + 1
            last = frame.f_lineno
            return local

        return local

    def of(self, run, octets):
        """What a run reached, with the signs that it gave."""
        self.counts.clear()
        threading.settrace(self)
        sys.settrace(self)
        try:
            signs = run(octets)
        finally:
            sys.settrace(None)
            threading.settrace(None)
        return {(pair, min(count.bit_length(), 4)) for pair, count in self.counts.items()} | set(signs or ())


# ---- changes


def constants(code):
    """The texts and octets that stand in a script, with those of its functions."""
    for value in code.co_consts:
        if hasattr(value, "co_consts"):
            yield from constants(value)
        for one in value if isinstance(value, (tuple, frozenset)) else [value]:
            if isinstance(one, str) and 0 < len(one) <= 40:
                yield one.encode()
            elif isinstance(one, bytes) and 0 < len(one) <= 40:
                yield one


def number(source):
    """A number as octets: in decimals, or of a width."""
    value = source.choice(NUMBERS) + source.choice((0, 0, 1, -1))
    if source.random() < 0.5:
        return str(value).encode()
    width = source.choice((1, 2, 4, 8))
    return (value % 256**width).to_bytes(width, source.choice(("big", "little")))


def piece(other, words, source):
    """Some octets: of another input, a word, a number, or any."""
    chosen = source.randrange(4)
    if chosen == 0 and other:
        at = source.randrange(len(other))
        return other[at : at + source.choice((1, 2, 4, 16, 64, 1024))]
    if chosen == 1 and words:
        return source.choice(words)
    if chosen == 2:
        return number(source)
    return bytes(source.randrange(256) for _ in range(source.choice((1, 1, 2, 4))))


def changed_once(octets, other, words, source):
    """A change at one place: a bit, an octet, a range that is cut, doubled or replaced, a piece that is put in."""
    at = source.randrange(len(octets) + 1)
    size = min(source.choice((0, 1, 1, 2, 4, 16, 64, 256)), len(octets) - at)
    chosen = source.randrange(6)
    if chosen == 0 and size:
        return octets[:at] + bytes([octets[at] ^ 1 << source.randrange(8)]) + octets[at + 1 :]
    if chosen == 1:
        return octets[:at] + octets[at + size :]
    if chosen == 2:
        return octets[: at + size] + octets[at : at + size] * source.choice((1, 1, 2, 40)) + octets[at + size :]
    if chosen == 3:
        return octets[:at] + piece(other, words, source) + octets[at:]
    return octets[:at] + piece(other, words, source) + octets[at + size :]


def changed(octets, other, words, source, most=MOST):
    for _ in range(source.choice((1, 1, 1, 2, 3, 6))):
        octets = changed_once(octets, other, words, source)
    return octets[:most]


# ---- the loop


def processor_seconds():
    return sum(os.times()[:4])


class Loop:
    """The inputs that a target has, and what was found."""

    def __init__(self, target, keep, failed):
        self.target, self.keep, self.failed = target, keep, failed
        self.coverage, self.source, self.is_stopped = Coverage(target.FILES), random.Random(), False
        self.inputs, self.reached, self.found, self.runs = [], set(), {}, 0
        code = (compile(pathlib.Path(file).read_bytes(), str(file), "exec", dont_inherit=True) for file in target.FILES)
        self.words = sorted({word for one in code for word in constants(one)} | set(getattr(target, "WORDS", ())))

    def fault_of(self, run, octets):
        """What was wrong with a run, and what it reached."""
        signal.setitimer(signal.ITIMER_PROF, SLOW)
        try:
            return None, run(octets)
        except Wrong as fault:
            return str(fault), set()
        except TooLong:
            return f"slow: more than {SLOW} s", set()
        except Exception as fault:
            last = traceback.extract_tb(fault.__traceback__)[-1]
            return f"uncaught {type(fault).__name__} in {last.name}, line {last.lineno}: {ascii(fault)}", set()
        finally:
            signal.setitimer(signal.ITIMER_PROF, 0)

    def note(self, fault, octets):
        """Tells a fault the first time that one of its kind is found, and keeps the input."""
        kind = fault.partition(":")[0]
        if kind not in self.found:
            path = f"{self.failed}{hashlib.sha256(octets).hexdigest()[:12]}"
            pathlib.Path(path).write_bytes(octets)
            self.found[kind] = f"{path}: {fault[:600]}"
            print(f"FOUND {self.found[kind]}", file=sys.stderr, flush=True)

    def look(self, octets):
        self.runs += 1
        fault, reached = self.fault_of(lambda it: self.coverage.of(self.target.run, it), octets)
        if fault:
            self.note(fault, octets)
        elif not reached <= self.reached:
            self.reached |= reached
            self.inputs.append(octets)
            (self.keep / f"kept-{hashlib.sha256(octets).hexdigest()[:16]}").write_bytes(octets)
            if hasattr(self.target, "whole") and (fault := self.fault_of(self.target.whole, octets)[0]):
                self.note(f"as a process, {fault}", octets)

    def next_input(self):
        source = self.source
        octets = source.choice(self.inputs[-30:] if source.random() < 0.4 else self.inputs)
        other = source.choice(self.inputs)
        if hasattr(self.target, "change") and source.random() < 0.8:
            return self.target.change(octets, other, source)
        return changed(octets, other, self.words, source, getattr(self.target, "MOST", MOST))

    def run(self, first, seconds):
        for octets in [*first, *(path.read_bytes() for path in sorted(self.keep.glob("kept-*")))]:
            self.look(octets)
        while processor_seconds() < seconds and self.inputs and not self.is_stopped:
            self.look(self.next_input())

    def stop(self, _number, _frame):
        self.is_stopped = True


def too_long(_number, _frame):
    raise TooLong


def main(words):
    """Fuzzes a target for some seconds of processor, the inputs' and the script's together, or tries the one input of a file: `TARGET
    SECONDS KEEP FAILED [FILE]`. The status is 1 where something was found, and 70 where what it needs isn't there."""
    target, keep = importlib.import_module(words[0]), pathlib.Path(words[2])
    signal.signal(signal.SIGPROF, too_long)
    loop = Loop(target, keep, words[3])
    signal.signal(signal.SIGUSR1, loop.stop)
    with tempfile.TemporaryDirectory(prefix="fuzz-") as folder:
        try:
            first = list(target.begin(pathlib.Path(folder), keep))
        except (OSError, subprocess.CalledProcessError) as fault:
            print(f"can't be built: {fault}", flush=True)
            return 70
        if words[4:]:
            loop.look(pathlib.Path(words[4]).read_bytes())
        else:
            loop.run(first, int(words[1]))
    took = processor_seconds() / 60
    print(f"{loop.runs} inputs in {took:.1f} minutes of processor, {len(loop.inputs)} of them new, {len(loop.reached)} signs: ", end="")
    print("FOUND\n" + "\n".join(loop.found.values()) if loop.found else "nothing was found", flush=True)
    return 1 if loop.found else 0
