"""How a target runs a script: in this process, where its lines can be counted, and as a process of its own."""
import contextlib
import importlib.machinery
import importlib.util
import io
import os
import pathlib
import signal
import subprocess
import sys
import typing

from guided import Wrong

TOP = pathlib.Path(__file__).resolve().parent.parent.parent
# No run of a script that is meant well takes as long, on a machine with other work.
SECONDS = 600
ENVIRONMENT = {name: value for name, value in os.environ.items() if not name.lower().endswith("_proxy")}


class Ended(typing.NamedTuple):
    """How a script ended, and what it wrote."""

    status: int
    out: bytes
    err: bytes


def module(name, path):
    """A script as a module, whose main part isn't run."""
    loader = importlib.machinery.SourceFileLoader(name, str(path))
    made = importlib.util.module_from_spec(importlib.util.spec_from_loader(name, loader))
    loader.exec_module(made)
    return made


class Script:
    """A script in Python. It is run as it stands, from its first line."""

    def __init__(self, path):
        self.path = path
        self.code = compile(path.read_bytes(), str(path), "exec", dont_inherit=True)

    def run(self, words, stdin=b""):
        """Runs it in this process. What it should have caught comes out as it is."""
        streams = sys.stdin, sys.stdout, sys.stderr, sys.argv
        out, err = io.BytesIO(), io.BytesIO()
        sys.stdin = io.TextIOWrapper(io.BytesIO(stdin), encoding="utf-8")
        sys.stdout = io.TextIOWrapper(out, encoding="utf-8", write_through=True)
        sys.stderr = io.TextIOWrapper(err, encoding="utf-8", errors="backslashreplace", write_through=True)
        sys.argv = [str(self.path), *words]
        try:
            exec(self.code, {"__name__": "__main__", "__file__": str(self.path)})
            status = 0
        except SystemExit as ended:
            status = ended.code or 0
            if not isinstance(status, int):
                print(status, file=sys.stderr)
                status = 1
        finally:
            streams_of_script = sys.stdout, sys.stderr
            sys.stdin, sys.stdout, sys.stderr, sys.argv = streams
            written = Ended(0, out.getvalue(), err.getvalue())
            for stream in streams_of_script:
                stream.detach()
        return written._replace(status=status)


def process(words, stdin=b"", seconds=SECONDS, env=None, cwd=None):
    """Runs words as a process of its own. What it started ends with it."""
    pipes = {"stdin": subprocess.PIPE, "stdout": subprocess.PIPE, "stderr": subprocess.PIPE}
    child = subprocess.Popen(words, env=env or ENVIRONMENT, cwd=cwd, start_new_session=True, **pipes)
    try:
        out, err = child.communicate(stdin, seconds)
    except subprocess.TimeoutExpired:
        raise Wrong(f"time: it hadn't ended after {seconds} s") from None
    finally:
        with contextlib.suppress(ProcessLookupError):
            os.killpg(child.pid, signal.SIGKILL)
        child.wait()
    if b"Traceback (most recent" in err:
        raise Wrong(f"traceback: {err[-300:]!r}")
    return Ended(child.returncode, out, err)


def wants(holds, what, ended=None):
    """What must always hold."""
    if not holds:
        raise Wrong(f"{what}: {ended!r}"[:1500] if ended is not None else what)


def wants_lines(ended, most):
    """Standard error has at most so many lines, each of printable ASCII."""
    wants(ended.err == b"" or ended.err.endswith(b"\n"), "unended-line on standard error", ended)
    lines = ended.err.split(b"\n")[:-1]
    wants(len(lines) <= most, "many-lines on standard error", ended)
    wants(all(32 <= octet < 127 for line in lines for octet in line), "unprintable on standard error", ended)


def tree(folder):
    """What lies in a folder: by path the octets of a file, or what else it is."""
    found = {}
    for at, folders, files in os.walk(folder):
        for name in [*folders, *files]:
            path = os.path.join(at, name)
            if os.path.islink(path):
                found[path] = "link", os.readlink(path)
            elif os.path.isdir(path):
                found[path] = "folder"
            else:
                with open(path, "rb") as file:
                    found[path] = "file", file.read()
    return {os.path.relpath(path, folder): what for path, what in found.items()}
