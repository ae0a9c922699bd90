"""Verifies a Sigstore bundle over an artifact from a pinned TUF root, by the C library of Ratmanganese.

What the library promises is proved, of what it is handed; this package, which hands it files and judges signatures by the
package `cryptography`, isn't. `ratmanganese.h` says what it owes the library. Nothing is kept between calls, so that threads may
call at once; over one store one verification ends before the next begins. What is handed in doesn't change meanwhile.

    report = verify(root=.., bundle=.., artifact=mapped("release.tar"), policy=b"keyless\\n..",
                    repository=FolderRepository("repository"), store=FolderStore("store"))

It returns where the bundle is accepted, and else raises.
"""
import datetime
import re
import time
from collections.abc import Callable, Mapping
from dataclasses import dataclass

from . import _library
from ._answer import field as _field, is_good
from ._files import FolderRepository, FolderStore, Repository, Store, mapped
from ._library import Octets

__all__ = [
    "FolderRepository", "FolderStore", "InputFault", "Octets", "OutOfMemory", "Refused", "Report", "Repository", "Store",
    "UsageFault", "VerificationError", "is_good", "mapped", "verify",
]
_MOST_ROUNDS = 1000
_EPOCH = datetime.datetime(1970, 1, 1, tzinfo=datetime.timezone.utc)


class VerificationError(Exception):
    """The bundle isn't accepted: the status of the call, and its text."""

    def __init__(self, status: int, text: str) -> None:
        super().__init__(text.strip() or f"status {status}")
        self.status, self.text = status, text


class Refused(VerificationError):
    """The bundle is refused: the part (`tuf` or `verify`), number and name of the refusal, and under several rules the number and
    name of each later one's."""

    def __init__(self, text: str, part: str, number: int, name: str, others: list[tuple[int, str]]) -> None:
        super().__init__(_library.REFUSED, text)
        self.part, self.number, self.name, self.others = part, number, name, others


class UsageFault(VerificationError):
    """The policy, a row or the moment is outside its grammar."""


class InputFault(VerificationError):
    """An input is too long."""


class OutOfMemory(VerificationError, MemoryError):
    """Out of memory."""


@dataclass(frozen=True)
class Report:
    """What is accepted, and by what: a line for each fact."""

    text: str

    def values(self, word: str) -> list[str]:
        """What stands behind this word on each line that it begins, as `values("identity")`."""
        return [rest for first, _, rest in (line.partition(" ") for line in self.text.splitlines()) if first == word]


def _fault_of(status: int, text: str) -> VerificationError:
    """What is raised by a status that isn't acceptance."""
    found = re.fullmatch(r"refused (\w+) (\d+) (\w+)\n((?:or \d+ \w+\n)*)", text, re.ASCII)
    if status == _library.REFUSED and found:
        return Refused(text, found[1], int(found[2]), found[3], [(int(number), name) for number, name in re.findall(r"or (\d+) (\w+)\n", found[4])])
    kinds = {_library.USAGE: UsageFault, _library.INPUT: InputFault, _library.MEMORY: OutOfMemory}
    return kinds.get(status, VerificationError)(status, text)


def _moment_of(now: datetime.datetime | None) -> tuple[int, int]:
    """Seconds since the start of 1970, and the nanoseconds behind them."""
    if now is None:
        return divmod(time.time_ns(), 10**9)
    if now.tzinfo is None:
        raise ValueError("the verification time has no time zone")
    seconds, rest = divmod(now - _EPOCH, datetime.timedelta(seconds=1))
    return seconds, rest.microseconds * 1000


class _Answers:
    """What was answered to a verification's questions."""

    def __init__(self, good: bytes, files: Mapping[bytes, Octets], repository: Repository, decide: Callable[[bytes], bool]) -> None:
        self.rows = {True: bytearray(good), False: bytearray()}
        self.files, self.absent = dict(files), list[bytes]()
        self._repository, self._decide = repository, decide

    def answer(self, questions: bytes) -> None:
        """Answers each line."""
        if not questions.endswith(b"\n"):
            raise ValueError("a question isn't ended")
        for line in questions[:-1].split(b"\n"):
            if line.startswith(b"accept "):
                # (anything but True isn't good)
                self.rows[self._decide(line) is True] += line + b"\n"
                continue
            word, name, most = line.split(b" ")
            if word != b"file":
                raise ValueError(f"no such question: {line!r}")
            found = self._repository(name := _field(name), int(most))
            if found is None:
                self.absent.append(name)
            else:
                self.files[name] = found


def _kept_of(text: bytes) -> list[tuple[bytes, bytes]]:
    """The files of the lines `keep NAME BYTES`."""
    rows = [line.split(b" ") for line in text.removesuffix(b"\n").split(b"\n")] if text else []
    if any(len(row) != 3 or row[0] != b"keep" for row in rows):
        raise ValueError("what the store is to keep can't be read")
    return [(_field(name), _field(octets)) for _, name, octets in rows]


def verify(
    *, root: Octets, bundle: Octets, artifact: Octets, policy: Octets, repository: Repository, store: Store,
    now: datetime.datetime | None = None, good: bytes = b"", whole: Mapping[bytes, Octets] | None = None,
    decide: Callable[[bytes], bool] = is_good, library: str = _library.NAME,
) -> Report:
    """Verifies a bundle, and gives the report where it is accepted; else it raises a VerificationError, or what the repository or the
    store raises. `good` has rows that hold, to begin with. With `whole` the repository has those files and no others."""
    answers = _Answers(good, whole or {}, repository, decide)
    stored, moment = store.load(), _moment_of(now)
    for _ in range(_MOST_ROUNDS):
        inputs, rows = (root, bundle, artifact, policy), (answers.rows[True], answers.rows[False])
        status, out, kept = _library.call(library, inputs, answers.files, answers.absent, stored, rows, moment, whole is not None)
        if status != _library.ASKS:
            break
        answers.answer(out)
    text = out.decode("ascii")
    if status in (_library.ACCEPTED, _library.REFUSED):
        store.keep(_kept_of(kept))
    if status == _library.ACCEPTED:
        return Report(text)
    raise _fault_of(status, text)
