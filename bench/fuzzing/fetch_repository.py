"""Fuzzes fetch-repository: what a server answers, how slowly, and the folder that it is brought into.

An input is parts with DIVIDER between them: how the server and the folder behave (the bytes of `Manner`), and for each path an answer,
as the octets that come over the connection. The script reads them by its own http.client, over a socket that is none, and its clock and
timer are a clock that each read puts forward: so slow servers cost no time.

Always: the status is 0 or 1, or 143 where the script was told to end. One line on standard error has all that is said. Nobody else is
connected to than the host of the URL, each request is one request, and there are no more of them, no more time and no more octets in a
read than the bounds allow. Where the status isn't 0 the folder, and what stands beside it, is as it was; else each file in it is as it
was, or has octets that were served, under a name that a repository's file has.
"""
import contextlib
import errno
import http.client
import io
import os
import pathlib
import re
import shutil
import signal
import socket
import sys
import time

from guided import changed
from scripts import TOP, Script, module, tree, wants, wants_lines

sys.path.insert(0, str(TOP / "bench"))
SCRIPT = TOP / "fetch-repository"
FILES = [SCRIPT, http.client.__file__]
MOST = 60_000
DIVIDER = b"\xff\xfe|\xff"
HOST, URL, SECONDS = ("repository.example", 8080), "http://repository.example:8080/base", 100
REQUEST = re.compile(rb"GET /[!-~]* HTTP/1\.1\r\nAccept-Encoding: identity\r\nHost: repository\.example:8080\r\nUser-Agent: [!-~]+\r\nConnection: close\r\n\r\n")
NAME = re.compile(r"targets|(targets/([0-9a-fA-F]+\.)?trusted_root|[1-9][0-9]*\.root|timestamp|(\d+\.)?(snapshot|[\w.~%-]*))\.json", re.ASCII)
# The longest file that is read, and as many requests as all roots and roles, in two spellings, sent on thrice, can be.
LONGEST, MOST_REQUESTS = 50_000_001, 4 * (257 + 2 + 2 * 32 + 1)
WITHOUT_END = [b"", bytes(8192), b"x" * 4096, b"HTTP/1.1 100 C\r\n\r\n" * 100, b"X: y\r\n" * 500, b"1\r\nx\r\n" * 500, b"{\"a\": [" * 500]
ABSENT = b"HTTP/1.1 404 Not Found\r\nContent-Length: 0\r\n\r\n"
SCRIPT_RUN = Script(SCRIPT)
FOLDER = ROOT = None


class Manner:
    """How the server and the folder behave: each is a byte, where there is one."""

    def __init__(self, octets):
        told = iter(octets.ljust(10, b"\0"))
        self.before, self.failing, self.at_request = next(told) % 9, next(told), next(told)
        self.at_octet, self.event = next(told) * 256 + next(told), next(told) % 7
        self.rooted, self.piece = next(told) % 4, (65536, 1, 7, 100)[next(told) % 4]
        # (a turn of the file system fails, or the script is told to end then)
        self.filling, self.failure = WITHOUT_END[next(told) % len(WITHOUT_END)], (errno.ENOSPC, errno.EACCES, None)[next(told) % 3]


class Served:
    """What is served, to whom asks over this, and a clock that the server's slowness puts forward."""

    def __init__(self, manner, answers):
        self.manner, self.answers = manner, answers
        self.now, self.rings, self.every = 0.0, None, 0
        self.requests, self.bodies = 0, []

    def monotonic(self):
        return self.now

    def setitimer(self, _which, seconds, every=0):
        self.rings, self.every = (self.now + seconds, every) if seconds else (None, 0)

    def pass_time(self, seconds):
        """Time passes, up to the next ring, which is a signal as it is when a read is waited for."""
        while seconds > 0:
            wait = seconds if self.rings is None else min(seconds, max(self.rings - self.now, 0))
            self.now, seconds = self.now + wait, seconds - wait
            if self.rings is not None and self.now >= self.rings:
                self.rings = self.now + self.every if self.every else None
                signal.raise_signal(signal.SIGALRM)

    def connect(self, address, *_more):
        wants(address == HOST, f"host: {address} is connected to")
        self.requests += 1
        wants(self.requests <= MOST_REQUESTS, "requests: more than the bounds allow")
        return Connection(self)


class Connection:
    """A socket that is none: it has what was sent looked at, and hands out an answer."""

    def __init__(self, served):
        self.served, self.sent = served, b""

    def setsockopt(self, *_words):
        pass

    def sendall(self, octets):
        self.sent += bytes(octets)

    def makefile(self, _mode):
        wants(REQUEST.fullmatch(self.sent), f"request: {self.sent!r}"[:600])
        path = self.sent.split(b" ")[1].removeprefix(b"/base/")
        answer = self.served.answers.get(path, ABSENT)
        self.served.bodies.append(answer)
        return io.BufferedReader(Octets(self.served, answer))

    def close(self):
        pass


class Octets(io.RawIOBase):
    """An answer as it comes: in pieces, with an event somewhere, and with a filling behind it that has no end."""

    def __init__(self, served, octets):
        self.served, self.octets, self.at, self.number = served, octets, 0, served.requests

    def readable(self):
        return True

    def readall(self):
        wants(False, "unbounded: all is read that a server sends")

    def event(self, manner):
        self.served.pass_time(0.01)
        if self.number != manner.at_request or self.at < manner.at_octet:
            return
        if manner.event == 1:
            self.served.pass_time(10**6)
        if manner.event == 2:
            raise ConnectionResetError(errno.ECONNRESET, "Connection reset by peer")
        if manner.event == 3:
            signal.raise_signal(signal.SIGTERM)
        if manner.event >= 4:
            self.served.pass_time((0, 1, 59, 61)[manner.event - 3])

    def readinto(self, buffer):
        manner = self.served.manner
        wants(len(buffer) <= LONGEST, f"unbounded: {len(buffer)} octets are read at once")
        self.event(manner)
        if self.at >= len(self.octets) and manner.filling:
            self.octets, self.at = manner.filling, 0
        came = self.octets[self.at : self.at + min(len(buffer), manner.piece)]
        buffer[: len(came)] = came
        self.at += len(came)
        return len(came)


# ---- the folder


def lay_out(folder, before):
    """What stands in the place of the folder that is brought into, in one of nine manners."""
    place = folder / "brought"
    if before == 1:
        place.write_bytes(b"a file")
    if before < 2:
        return
    (place / "data").mkdir(parents=True)
    (place / "data" / "old.json").write_bytes(b"an old one")
    if before == 3:
        (place / "timestamp.json").write_bytes(b"{}")
        (place / "targets").mkdir()
        (place / "targets" / "trusted_root.json").write_bytes(b"old")
    if before == 4:
        (place / "timestamp.json").mkdir()
        (place / "1.root.json").write_bytes(b"old")
    if before == 5:
        (place / "1.root.json").symlink_to("data/old.json")
        (place / "targets.json").symlink_to("data/old.json")
        (place / "snapshot.json").mkdir()
    if before == 6:
        (place / "targets").write_bytes(b"a file")
        (place / "timestamp.json").symlink_to("nowhere")
    if before == 7:
        (place / "2.root.json" / "x").mkdir(parents=True)
        (place / "timestamp.json").symlink_to("nowhere")
    if before == 8:
        place.rename(folder / "there")
        place.symlink_to("there")


class Failing:
    """A call of the file system that fails at one of its turns, or within which the script is told to end."""

    def __init__(self, manner, *calls):
        self.manner, self.turn = manner, 0
        self.calls = {name: getattr(os, name) for name in calls}

    def made(self, name):
        def call(*words, **more):
            self.turn += 1
            # (what is removed can be removed: nobody could put that right)
            if self.turn == self.manner.failing and self.manner.failure and name not in ("rmdir", "unlink"):
                raise OSError(self.manner.failure, os.strerror(self.manner.failure), str(words[0]))
            done = self.calls[name](*words, **more)
            if self.turn == self.manner.failing and not self.manner.failure:
                signal.raise_signal(signal.SIGTERM)
            return done

        return call


@contextlib.contextmanager
def outside(served):
    """The script's socket, clock, timer and file system. What it does to signals is undone."""
    failing = Failing(served.manner, "replace", "link", "mkdir", "rmdir", "unlink")
    places = [(socket, "create_connection", served.connect), (time, "monotonic", served.monotonic), (signal, "setitimer", served.setitimer)]
    places += [(os, name, failing.made(name)) for name in failing.calls]
    kept = [(where, name, getattr(where, name)) for where, name, _ in places]
    signals = signal.SIGALRM, signal.SIGTERM, signal.SIGINT, signal.SIGHUP
    handlers = [signal.getsignal(number) for number in signals]
    for where, name, stand_in in places:
        setattr(where, name, stand_in)
    try:
        yield
    finally:
        for where, name, own in kept:
            setattr(where, name, own)
        for number in signals:
            signal.signal(number, signal.SIG_IGN)
        signal.pthread_sigmask(signal.SIG_UNBLOCK, signals)
        for number, handler in zip(signals, handlers):
            signal.signal(number, handler)


# ---- what has to hold


def read_input(octets):
    first, *parts = octets.split(DIVIDER)
    return Manner(first), {path: answer for path, _, answer in (part.partition(b"\0") for part in parts)}


def shown(folder):
    """What stands in a folder, whatever it is."""
    return {name: what for name, what in tree(folder).items()}


def judge(ended, before, after, served):
    wants(not ended.out, "output: nothing is written there", ended)
    manner = served.manner
    told_to_end = ended.status == 143 and (manner.event == 3 or (manner.failing and not manner.failure))
    wants(ended.status in (0, 1) or told_to_end, "status: it is 0 or 1", ended)
    wants_lines(ended, 1)
    wants(told_to_end or (ended.err.startswith(b"fetch-repository: ") and len(ended.err) < 600), "line: one says what was", ended)
    wants(served.now <= SECONDS + 1.1, f"late: it took {served.now} s", ended)
    # (told to end once it puts files in place, it puts them all there)
    if ended.status == 1 or (ended.status == 143 and before == after):
        wants(before == after, f"left: {sorted(set(after.items()) ^ set(before.items()))!r}"[:700], ended)
        return
    place = "there" if served.manner.before == 8 else "brought"
    wants(all(after.get(name) == what for name, what in before.items() if name != place and not name.startswith(place + "/")), "outside: a file", ended)
    wants(f"{place}/timestamp.json" in after, "timestamp: none is there", ended)
    for name, what in after.items():
        if before.get(name) == what or name == place:
            continue
        wants(name.startswith(place + "/") and NAME.fullmatch(name.removeprefix(place + "/")), f"name: {name!r}", ended)
        wants(what == "folder" or what[0] == "file", f"sort: {name!r} is a {what!r}", ended)


def run(octets):
    manner, answers = read_input(octets)
    folder = FOLDER / "run"
    shutil.rmtree(folder, ignore_errors=True)
    folder.mkdir()
    lay_out(folder, manner.before)
    served, before = Served(manner, answers), shown(folder)
    words = [URL, str(folder / "brought"), f"--seconds={SECONDS}", *([f"--root={ROOT}{manner.rooted}"] if manner.rooted else [])]
    with outside(served):
        ended = SCRIPT_RUN.run(words)
    judge(ended, before, shown(folder), served)
    return {(ended.status, len(ended.err) > 400)}


# ---- inputs


def answered(octets, status=b"200 OK", *headers):
    return b"\r\n".join([b"HTTP/1.1 " + status, *headers, b"", octets])


def joined(files, manner=b""):
    return DIVIDER.join([manner, *(name.encode() + b"\0" + answered(octets) for name, octets in files.items())])


def begin(folder, _keep):
    global FOLDER, ROOT
    FOLDER, ROOT = folder, folder / "root"
    cases = module("fetch_cases", TOP / "bench" / "fetch")
    for number, content in ((1, {"version": 1}), (2, {"version": 0, "consistent_snapshot": True}), (3, {"version": 2**64 - 2})):
        pathlib.Path(f"{ROOT}{number}").write_bytes(cases.document(**content))
    chain = {"targets": [cases.role("a/b%", "*"), cases.role("b", "t*t.[!x]son", terminating=True)], "a/b%": [], "b": None}
    hashed = {"targets": [cases.role("a", path_hash_prefixes=["3", ""])], "a": None}
    for consistent in (False, True):
        for delegations in ({"targets": None}, chain, hashed):
            files = cases.repository(delegations, consistent, names={"a/b%": "a%2Fb%25"})
            for before in range(9):
                yield joined(files, bytes([before, 0]))
            files |= {"2.root.json": cases.document(version=2, consistent_snapshot=consistent)}
            yield joined(files, bytes([3, 9, 0, 0, 0, 0, 1]))
            yield joined(files, bytes([3, 0, 3, 0, 90, 1, 0, 1]))
    moved = joined(cases.PLAIN, b"\3")
    for header in (b"Location: /base/later", b"Location: //repository.example:8080/later", b"Location: http://other.example/", b"Location: later\xe9"):
        yield moved + DIVIDER + b"timestamp.json\0" + answered(b"x", b"302 Found", header) + DIVIDER + b"later\0" + answered(cases.PLAIN["timestamp.json"])
    chunks = b"%x\r\n%s\r\n0\r\n\r\n" % (len(cases.PLAIN["timestamp.json"]), cases.PLAIN["timestamp.json"])
    for length in (b"Transfer-Encoding: chunked", b"Content-Length: 10", b"Content-Length: 99999999999"):
        for octets in (chunks, b"-1\r\n" + chunks, b"-5\r\n" + chunks):
            yield moved + DIVIDER + b"timestamp.json\0" + answered(octets, b"200 OK", length)


WORDS = [b"HTTP/1.1 ", b"Location: ", b"Content-Length: ", b"Transfer-Encoding: chunked\r\n", b"\r\n\r\n", b"-1", b"null", b"true", b"[]", b"{}"]
WORDS += [b'"consistent_snapshot": true', b'"terminating": true', b'"version": ', b'"length": ', b'"path_hash_prefixes": []', b"\\ud800", b"../", b"%2e"]


def change(octets, other, source):
    parts, others = octets.split(DIVIDER), other.split(DIVIDER)
    chosen = source.randrange(8)
    at = source.randrange(len(parts))
    if chosen == 0 or at == 0:
        manner = bytearray(parts[0].ljust(10, b"\0"))
        manner[source.randrange(10)] = source.choice((0, 1, 2, 3, 4, 5, 6, 7, 8, source.randrange(256)))
        parts[0] = bytes(manner)
    elif chosen == 1 and len(parts) > 2:
        del parts[at]
    elif chosen == 2:
        parts.append(source.choice(others[1:] or parts[1:]))
    elif chosen == 3:
        path, _, answer = parts[at].partition(b"\0")
        head, _, body = answer.partition(b"\r\n\r\n")
        parts[at] = path + b"\0" + changed(head, answer, WORDS, source) + b"\r\n\r\n" + body
    elif chosen == 4:
        path, _, answer = parts[at].partition(b"\0")
        parts[at] = changed(path, source.choice(others), WORDS, source) + b"\0" + answer
    else:
        path, _, answer = parts[at].partition(b"\0")
        parts[at] = path + b"\0" + changed(answer, source.choice(others), WORDS, source)
    return DIVIDER.join(parts)[:MOST]
