"""Verifies a bundle, as the C host does: the report or the refusal on standard output, and its status.

    python3 -m ratmanganese --root=FILE --repository=DIR --store=DIR --bundle=FILE --artifact=FILE --policy=FILE
        [--provider=FILE] [--now=YYYY-MM-DDTHH:MM:SSZ] [--all]
    python3 -m ratmanganese --answer <QUESTIONS

--provider has rows that hold, to begin with; with --all the whole repository is handed in at once; --answer alone
writes, of lines `accept ..`, those whose signatures are good. The status is the call's; 2 for
faulty words, 3 where an input or a file can't be read, 4 where the store or standard output can't be written, 70 where what the
library says isn't understood.
"""
import datetime
import os
import re
import sys
from collections.abc import Iterable

from . import FolderRepository, FolderStore, VerificationError, is_good, mapped, verify
from ._files import read_input

_INPUTS = {"policy": 65536, "root": 512_000, "bundle": 16 << 20, "provider": 16 << 20}
_OPTIONAL = {"provider", "now", "all"}
_WORDS = {*_INPUTS, "repository", "store", "artifact", *_OPTIONAL}


class _Store(FolderStore):
    """Says that it couldn't be written, where it couldn't."""

    def keep(self, files: Iterable[tuple[bytes, bytes]]) -> None:
        try:
            super().keep(files)
        except OSError as fault:
            raise SystemExit(_failed(4, fault)) from None


def _failed(status: int, fault: Exception) -> int:
    """Says why, in a line, and gives the status."""
    why = f"{os.fsdecode(fault.filename)}: {fault.strerror}" if isinstance(fault, OSError) and fault.filename else str(fault)
    print(f"verify: {ascii(why)[1:-1]}", file=sys.stderr)
    return status


def _answer(words: list[str]) -> tuple[int, str]:
    """The status, and what is said."""
    given = dict(found.groups() for word in words if (found := re.fullmatch(r"--(\w+)(?:=(.*))?", word, re.DOTALL)))
    names = set(given)
    if len(given) != len(words) or not _WORDS - _OPTIONAL <= names <= _WORDS or any(not given[name] for name in names - {"all"}):
        return 2, "usage\n"
    try:
        # (its only spelling: `strptime` takes others)
        if not re.fullmatch(r"\d{4}-\d\d-\d\dT\d\d:\d\d:\d\dZ", given.get("now", "2025-01-01T00:00:00Z"), re.ASCII):
            raise ValueError
        now = datetime.datetime.strptime(given["now"], "%Y-%m-%dT%H:%M:%SZ").replace(tzinfo=datetime.timezone.utc) if "now" in given else None
    except ValueError:
        return 2, "usage\n"
    read = {"provider": b""}
    for name in (name for name in _INPUTS if name in given):
        try:
            read[name] = read_input(given[name], _INPUTS[name])
        except OSError:
            return 3, f"input {name}\n"
    repository = FolderRepository(given["repository"])
    try:
        whole = repository.all() if "all" in given else None
        artifact, good = mapped(given["artifact"]), read.pop("provider")
        return 0, verify(**read, artifact=artifact, repository=repository, store=_Store(given["store"]), now=now, good=good, whole=whole).text
    except VerificationError as refusal:
        return refusal.status, refusal.text
    except OSError as fault:
        return _failed(3, fault), ""
    except (ValueError, RuntimeError) as fault:
        return _failed(70, fault), ""


def main() -> int:
    if sys.argv[1:] == ["--answer"]:
        status, text = 0, b"".join(line for line in sys.stdin.buffer if line.endswith(b"\n") and is_good(line[:-1]))
    else:
        status, said = _answer(sys.argv[1:])
        text = said.encode()
    try:
        sys.stdout.buffer.write(text)
        sys.stdout.flush()
    except OSError as fault:
        return _failed(4, fault)
    return status


if __name__ == "__main__":
    sys.exit(main())
