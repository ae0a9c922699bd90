"""What `ratmanganese trust` keeps of a user, and what `ratmanganese verify` finds there.

Below $XDG_CONFIG_HOME/ratmanganese each kept root has a folder of its name: root.json, and where it has one the address of its
repository, url. Copies of repositories lie below $XDG_CACHE_HOME/ratmanganese, stores below $XDG_STATE_HOME/ratmanganese, under
the same names (XDG Base Directory Specification: where a variable isn't set, or is no absolute path, it is ~/.config, ~/.cache
and ~/.local/state). Each of these folders is its owner's alone: one that somebody else may write is refused, since whoever
writes a kept root says what is trusted.
"""
import contextlib
import fcntl
import hashlib
import json
import os
import pathlib
import re
import shutil
import signal
import stat
import subprocess
import sys
import time
import urllib.parse

TOP = pathlib.Path(__file__).resolve().parent.parent
# Where it is installed, without the sources, the scripts are on the path.
BEFORE = "./" if (TOP / "crates").is_dir() else ""
MAX_ROOT = 512_000
NAME = re.compile(r"[A-Za-z0-9][A-Za-z0-9._-]{0,63}")
# How long one run waits for another one that holds the copy of the same repository.
MOST_SECONDS = 600
# The statuses, as docs/REFUSALS.md has them; 1 also where nothing is kept.
REFUSED, USAGE, INPUT, OUTPUT, MEMORY, OWN = 1, 2, 3, 4, 5, 70


class Ended(Exception):
    """Ends the command with a status, the line that goes to standard output, and what stands on standard error."""

    def __init__(self, status, text, line=None):
        super().__init__(text)
        self.status, self.text, self.line = status, text, line


def printed(text):
    """A text for a terminal: each byte outside 20 to 7E stands there as `\\x` and two digits, so that it fills no line but its own."""
    return "".join(chr(byte) if 32 <= byte < 127 else f"\\x{byte:02x}" for byte in os.fsencode(text))


def say(text):
    """Says a line on standard error."""
    print(f"ratmanganese: {printed(text)}", file=sys.stderr, flush=True)


def write(text):
    """Writes lines to standard output."""
    try:
        sys.stdout.write(text)
        sys.stdout.flush()
    except OSError as fault:
        # (so that nothing is written at the end)
        os.dup2(os.open(os.devnull, os.O_WRONLY), 1)
        raise Ended(OUTPUT, f"standard output: {fault.strerror}") from None


# ---- folders


def base_of(variable, usual):
    """The folder below that of an environment variable, or below the home folder."""
    for path, rest in ((os.environ.get(variable, ""), ""), (os.environ.get("HOME", ""), usual)):
        if os.path.isabs(path):
            return pathlib.Path(path, rest, "ratmanganese")
    raise Ended(OWN, f"neither {variable} nor HOME is the absolute path of a folder")


def config():
    return base_of("XDG_CONFIG_HOME", ".config")


def cache():
    return base_of("XDG_CACHE_HOME", ".cache")


def state():
    return base_of("XDG_STATE_HOME", ".local/state")


def see_own(path, is_kind, kind):
    """Refuses what isn't the user's alone to write, or no folder or file. (The folder of all names may be a link.)"""
    found = os.stat(path) if kind == "base" else os.lstat(path)
    if not is_kind(found.st_mode):
        raise Ended(INPUT, f"{path}: it is no {'regular file' if is_kind is stat.S_ISREG else 'folder'}")
    if found.st_uid != os.geteuid() or found.st_mode & 0o022:
        raise Ended(INPUT, f"{path}: somebody else may write it; it has to be its owner's alone")


def make_own(path, kind="base"):
    """Makes a folder of its owner alone, where it isn't there."""
    path.parent.mkdir(parents=True, exist_ok=True)
    path.mkdir(mode=0o700, exist_ok=True)
    see_own(path, stat.S_ISDIR, kind)


def read_file(path, most):
    """A regular file of at most so many octets."""
    with open(os.open(path, os.O_RDONLY | os.O_NONBLOCK), "rb") as file:
        if not stat.S_ISREG(os.fstat(file.fileno()).st_mode):
            raise Ended(INPUT, f"{path}: it is no regular file")
        octets = file.read(most + 1)
    if len(octets) > most:
        raise Ended(INPUT, f"{path}: it is longer than {most} bytes")
    return octets


def put_file(path, octets):
    """Writes a file of its owner alone, to the disk."""
    with open(os.open(path, os.O_WRONLY | os.O_CREAT | os.O_EXCL, 0o600), "wb") as file:
        file.write(octets)
        file.flush()
        os.fsync(file.fileno())


# ---- roots


def see_name(name):
    if not NAME.fullmatch(name):
        raise Ended(USAGE, f"{name} is no name: one has letters, digits, `.`, `_` and `-`, at most 64, and begins with a letter or digit")
    return name


def names():
    """The names under which roots are kept, in order."""
    folder = config()
    if not folder.exists():
        return []
    see_own(folder, stat.S_ISDIR, "base")
    try:
        return sorted(name for name in os.listdir(folder) if NAME.fullmatch(name) and (folder / name).is_dir())
    except OSError as fault:
        raise Ended(INPUT, f"{folder}: {fault.strerror}") from None


class Kept:
    """A root that is kept."""

    def __init__(self, name):
        self.name = see_name(name)
        self.folder = config() / name
        self.root, self.url_file = self.folder / "root.json", self.folder / "url"
        if not os.path.lexists(self.folder):
            told = ", ".join(names()) or "none"
            raise Ended(INPUT, f"no root is kept as {name}; kept are: {told}")
        see_own(config(), stat.S_ISDIR, "base")
        see_own(self.folder, stat.S_ISDIR, "kept")
        see_own(self.root, stat.S_ISREG, "kept")
        self.url = None
        if os.path.lexists(self.url_file):
            see_own(self.url_file, stat.S_ISREG, "kept")
            self.url = see_url(read_file(self.url_file, 4096).decode("ascii", "replace").rstrip("\n"))

    def octets(self):
        return read_file(self.root, MAX_ROOT)


def see_url(url):
    """The address of a repository: http or https, a host, and a path."""
    try:
        parts = urllib.parse.urlsplit(url)
        is_one = parts.scheme in ("http", "https") and parts.hostname and parts.port != 0
    except ValueError:
        is_one = False
    if not is_one or not re.fullmatch(r"[!-~]+", url) or set(url) & set("?#@"):
        raise Ended(USAGE, f"{url} is no http or https URL of a host and a path alone")
    return url


def document_of(octets, path):
    """What a root document tells of itself. Nothing of it is believed: it is for the user to compare."""
    try:
        signed = json.loads(octets)["signed"]
        if signed["_type"] != "root" or type(signed["version"]) is not int:
            raise ValueError
        roles = {name: (role["threshold"], list(map(str, role["keyids"]))) for name, role in signed["roles"].items()}
        return signed["version"], str(signed["expires"]), roles
    except (ValueError, TypeError, KeyError, AttributeError, RecursionError):
        raise Ended(INPUT, f"{path}: it is no TUF root document") from None


def lines_on(octets, path):
    """The lines by which a root is compared: its SHA-256 and version, and of each role the threshold and the key ids."""
    version, expires, roles = document_of(octets, path)
    yield f"sha256 {hashlib.sha256(octets).hexdigest()}"
    yield f"version {version}"
    yield f"expires {expires}"
    for name, (threshold, ids) in sorted(roles.items()):
        yield f"role {name} {threshold} of {len(ids)}"
        yield from (f"key {name} {it}" for it in ids)


def only_name():
    """The name of the only root that is kept."""
    found = names()
    if len(found) == 1:
        return found[0]
    if found:
        raise Ended(USAGE, f"several roots are kept: {', '.join(found)}; --trust=NAME says which one counts", "usage")
    raise Ended(INPUT, f"no root is kept: `{BEFORE}ratmanganese trust add NAME --root=FILE --url=URL` keeps one, and --root=FILE names one", "input root")


# ---- copies of repositories


class Lock:
    """The hold on the copy of a repository: shared while a run reads it, and of one run alone while it is brought."""

    def __init__(self, folder):
        self.path, self.file = folder / "lock", None
        self.open()

    def open(self):
        self.drop()
        self.file = os.open(self.path, os.O_RDWR | os.O_CREAT | os.O_NOFOLLOW, 0o600)

    def drop(self):
        if self.file is not None:
            os.close(self.file)
        self.file = None

    def is_it(self):
        """Whether the file that is held is still the one of this path: one that removes a root removes it."""
        try:
            found = os.stat(self.path)
        except FileNotFoundError:
            return False
        return (found.st_dev, found.st_ino) == (os.fstat(self.file).st_dev, os.fstat(self.file).st_ino)

    def take(self, how):
        end = time.monotonic() + MOST_SECONDS
        while time.monotonic() < end:
            try:
                fcntl.flock(self.file, how | fcntl.LOCK_NB)
            except BlockingIOError:
                time.sleep(0.2)
                continue
            if self.is_it():
                return
            self.open()
        raise Ended(OWN, f"{self.path}: another run has held it for {MOST_SECONDS} seconds")

    def share(self):
        self.take(fcntl.LOCK_SH)

    def own(self):
        self.take(fcntl.LOCK_EX)


class Copy:
    """The copy of a kept root's repository, and when it was brought."""

    def __init__(self, kept):
        self.kept, self.home = kept, cache() / kept.name
        make_own(cache())
        make_own(self.home, "kept")
        self.folder, self.stamp = self.home / "repository", self.home / "brought"
        self.lock = Lock(self.home)

    def mark(self):
        """What a copy is of: the address, and the root from which next roots were asked for."""
        return f"{self.kept.url}\n{hashlib.sha256(self.kept.octets()).hexdigest()}\n".encode()

    def age(self):
        """For how many seconds it has been there; none where there is none, or one of another root or address."""
        try:
            see_own(self.folder, stat.S_ISDIR, "kept")
            if read_file(self.stamp, 8192) != self.mark():
                return None
            age = time.time() - self.stamp.stat().st_mtime
        except FileNotFoundError:
            return None
        # (at a moment that is to come nothing was brought)
        return age if age >= 0 else None

    def is_fresh(self, most):
        age = self.age()
        return age is not None and age <= most

    def bring(self, most):
        """Brings the repository anew where the copy is older than so many seconds. A fetch that fails leaves it as it was."""
        self.lock.share()
        if self.is_fresh(most):
            return
        self.lock.own()
        # (another run may have brought it meanwhile)
        if not self.is_fresh(most):
            self.clear()
            try:
                self.fetch()
            finally:
                self.clear()
        self.lock.share()

    def fetch(self):
        began, new = time.time(), self.home / "part.new"
        if ran([TOP / "fetch-repository", self.kept.url, new, f"--root={self.kept.root}"]) != 0:
            age = self.age()
            told = "there is no copy" if age is None else f"the copy is {spelled(age)} old, and --offline goes by it"
            raise Ended(OWN, f"the repository of {self.kept.name} can't be brought from {self.kept.url}; {told}")
        beside = self.home / "part.stamp"
        put_file(beside, self.mark())
        os.utime(beside, (began, began))
        with contextlib.suppress(FileNotFoundError):
            self.stamp.unlink()
        with contextlib.suppress(FileNotFoundError):
            self.folder.rename(self.home / "part.old")
        new.rename(self.folder)
        beside.rename(self.stamp)

    def clear(self):
        """Removes what a run left that was killed; only the run that holds the copy alone may."""
        for name in ("part.new", "part.old"):
            shutil.rmtree(self.home / name, ignore_errors=True)
        with contextlib.suppress(FileNotFoundError):
            (self.home / "part.stamp").unlink()


def spelled(seconds):
    """A time as somebody reads it."""
    for length, name in ((86400, "day"), (3600, "hour"), (60, "minute")):
        if seconds >= length:
            count = int(seconds // length)
            return f"{count} {name}{'' if count == 1 else 's'}"
    return "less than a minute"


# ---- children


class Interrupted(Exception):
    """Somebody ended the command by a signal."""


def interrupted(_number, _frame):
    raise Interrupted


def ran(words, **how):
    """The status of a command that gets no input; it ends with this one."""
    with subprocess.Popen([os.fspath(word) for word in words], stdin=subprocess.DEVNULL, **how) as child:
        try:
            return child.wait()
        except BaseException:
            child.terminate()
            raise


def main(run):
    """Runs a command over its words, and ends with its status."""
    for number in (signal.SIGINT, signal.SIGTERM, signal.SIGHUP):
        # (what is ignored where this is started stays so)
        if signal.getsignal(number) != signal.SIG_IGN:
            signal.signal(number, interrupted)
    try:
        sys.exit(run(sys.argv[1:]))
    except Interrupted:
        sys.exit(130)
    except Ended as ended:
        say(ended.text)
        status, line = ended.status, ended.line
    except OSError as fault:
        say(f"{os.fsdecode(fault.filename)}: {fault.strerror}" if fault.filename else str(fault.strerror))
        status, line = OUTPUT, None
    except MemoryError:
        status, line = MEMORY, None
    except Exception as fault:
        say(f"it broke off: {fault!r}")
        status, line = OWN, None
    try:
        write(f"{line}\n" if line else "")
    except Ended as ended:
        say(ended.text)
        status = ended.status
    sys.exit(status)
