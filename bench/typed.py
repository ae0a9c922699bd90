"""The rows of bench/face on `ratmanganese trust` and on `ratmanganese verify` by few words. The programs are stand-ins that note what
they are handed, and the repository is served here."""
import base64
import functools
import hashlib
import http.server
import json
import os
import pty
import resource
import stat
import subprocess
import threading
import time

from recorded import Recorder
from trying import run, told, tried

REPORT = "accepted\nroot none\n"
SIGNED = ("--identity=a@example.com", "--issuer=https://issuer.example.com")


class Site:
    """A user's home, in which nothing is kept yet, and a server of a world's repository."""

    def __init__(self, clone, world, folder):
        self.clone, self.world, self.folder = clone, world, folder
        self.home = folder / "home"
        self.home.mkdir(parents=True)
        self.config, self.cache = self.home / ".config" / "ratmanganese", self.home / ".cache" / "ratmanganese"
        self.state = self.home / ".local" / "state" / "ratmanganese"
        self.env = {name: value for name, value in os.environ.items() if not name.startswith("XDG_")} | {"HOME": str(self.home)}
        self.asked = []
        self.server = http.server.ThreadingHTTPServer(("127.0.0.1", 0), functools.partial(self.handler(), directory=world / "repository"))
        threading.Thread(target=self.server.serve_forever, daemon=True).start()
        self.url = f"http://127.0.0.1:{self.server.server_address[1]}"
        self.command = str(clone / "ratmanganese")

    def handler(self):
        asked = self.asked

        class Handler(http.server.SimpleHTTPRequestHandler):
            def do_GET(self):
                asked.append(self.path)
                super().do_GET()

            def log_message(self, *_):
                pass

        return Handler

    def tries(self, what, words, status, out=None, err=(), silent=(), **more):
        return tried(f"24 {what}", [self.command, *words], more.pop("at", self.folder), status, out, err, silent, **{"env": self.env, **more})

    def add(self, name, *more):
        return [self.command, "trust", "add", name, f"--root={self.world / 'root.json'}", "--yes", *more]


def modes_of(folder):
    """The modes of what is below a folder, and of itself."""
    return {str(path.relative_to(folder.parent)): stat.S_IMODE(path.lstat().st_mode) for path in (folder, *folder.rglob("*"))}


def answered(site, text):
    """`trust add` at a terminal, where this is answered."""
    leader, follower = pty.openpty()
    os.write(leader, text.encode())
    words = [word for word in site.add("asked") if word != "--yes"]
    done = run(words, site.folder, env=site.env, stdin=follower)
    os.close(follower)
    os.close(leader)
    return done


def lines_of(root):
    """What is shown of a root."""
    octets = root.read_bytes()
    signed = json.loads(octets)["signed"]
    lines = [f"sha256 {hashlib.sha256(octets).hexdigest()}", f"version {signed['version']}", f"expires {signed['expires']}"]
    for name, role in sorted(signed["roles"].items()):
        lines += [f"role {name} {role['threshold']} of {len(role['keyids'])}", *(f"key {name} {it}" for it in role["keyids"])]
    return "".join(f"{line}\n" for line in lines)


def keeps(site):
    """`trust`: what is kept, shown, listed and removed."""
    root = site.world / "root.json"
    shown, digest = lines_of(root), hashlib.sha256(root.read_bytes()).hexdigest()
    add = site.add("one")[1:]
    site.tries("`trust list` where nothing is kept", ["trust", "list"], 0, "")
    site.tries("`trust add` with nobody to ask", [word for word in add if word != "--yes"], 2, f"{shown}usage\n", ["nobody to ask"], stdin=subprocess.DEVNULL)
    for text in ("no\n", "\n", "yes, please\n", "\x04"):
        done = answered(site, text)
        told(f"24 `trust add` where the answer is {text!r}", [] if done.returncode == 1 and not list(site.config.glob("*")) else [f"{done.returncode} {done.stderr}"])
    done = answered(site, "yes\n")
    told("24 `trust add` where the answer is yes", [] if done.returncode == 0 and done.stdout == shown else [f"{done.returncode} {done.stderr}"])
    site.tries("`trust add --yes`", [*add, f"--url={site.url}"], 0, shown, ["is kept as one"])
    wanted = {"ratmanganese": 0o700, **{f"ratmanganese/{name}": 0o700 for name in ("one", "asked")}}
    wanted |= {f"ratmanganese/{path}": 0o600 for path in ("one/root.json", "one/url", "asked/root.json")}
    told("24 which are their owner's alone, and nothing beside them", [] if modes_of(site.config) == wanted else [str(modes_of(site.config))])
    told("24 octet by octet", [] if (site.config / "one" / "root.json").read_bytes() == root.read_bytes() else ["another root"])
    site.tries("`trust add` of a name that is there", add, 1, "", ["is kept as one already"])
    lines = f"asked version 1 sha256 {digest} url none\none version 1 sha256 {digest} url {site.url}\n"
    site.tries("`trust list`", ["trust", "list"], 0, lines)
    site.tries("`trust show`", ["trust", "show", "one"], 0, f"{shown}url {site.url}\nfile {site.config / 'one' / 'root.json'}\n")
    site.tries("`trust show` of no name", ["trust", "show", "two"], 3, "", ["no root is kept as two; kept are: asked, one"])
    site.tries("`trust remove` of no name", ["trust", "remove", "two"], 3, "", ["no root is kept as two"])
    site.tries("`trust remove`", ["trust", "remove", "asked"], 0, "", ["asked is removed"])
    site.tries("and the other one is there", ["trust", "list"], 0, lines.partition("\n")[2])


def stumbles(site):
    """`trust` over words and files that can't be right."""
    left = modes_of(site.config)
    for name in ("../x", "a/b", ".x", "a b", "a\nb", "x" * 65, "Zürich", "*"):
        site.tries(f"`trust add` of the name {name!r}", site.add(name)[1:], 2, "", ["is no name"])
    for words in ([], ["keep"], ["add"], ["add", "x"], ["add", "x", "y", "--root=z"], ["add", "x", "--root="], ["add", "x", "--root=a", "--root=b"], ["list", "x"],
                  ["add", "x", "--rot=a"], ["add", "", "--root=a"], ["show"], ["remove", "one", "--yes"], ["add", "-x", "--root=a"]):
        site.tries(f"`trust {' '.join(words)}`", ["trust", *words], 2, "usage\n", ["ratmanganese: "])
    for url in ("ftp://x/y", "x", "http://", "http://a b/", "http://u@h/x", "http://h/x?y", "http://h/\n"):
        site.tries(f"`trust add --url={url!r}`", [*site.add("x")[1:], f"--url={url}"], 2, "", ["is no http or https URL"])
    odd = site.folder / "odd"
    odd.mkdir()
    os.mkfifo(odd / "pipe")
    (odd / "long").write_bytes(b" " * 512001)
    (odd / "text").write_text("{}")
    (odd / "deep").write_text("[" * 100000)
    (odd / "other").write_text('{"signed": {"_type": "timestamp", "version": 1}}')
    (odd / "true").write_text('{"signed": {"_type": "root", "version": true, "roles": {}, "expires": ""}}')
    (odd / "control").write_text(json.dumps({"signed": {"_type": "root", "version": 1, "expires": "\x1b[31m", "roles": {"a\nb": {"threshold": 1, "keyids": ["\x07"]}}}}))
    for name, says in (("pipe", "no regular file"), ("long", "longer than 512000"), ("text", "no TUF root document"), ("deep", "no TUF root document"),
                       ("other", "no TUF root document"), ("true", "no TUF root document"), ("nope", "No such file"), ("", "no regular file")):
        words = ["trust", "add", "x", f"--root={odd / name}", "--yes"]
        site.tries(f"`trust add` of a root that is {name or 'a folder'}", words, 3, "", [says] if name else ["ratmanganese: "], ["Traceback"], seconds=20)
    words = ["trust", "add", "control", f"--root={odd / 'control'}", "--yes"]
    site.tries("`trust add` of a root with odd texts", words, 0, lambda text: "\x1b" not in text and "\x07" not in text and "role a\\x0ab 1 of 1\n" in text)
    site.tries("which is removed", ["trust", "remove", "control"], 0, "")
    # (a file that grows past the limit is what a full disk is to a process)
    limit = lambda: resource.setrlimit(resource.RLIMIT_FSIZE, (100, 100))
    site.tries("`trust add` on a full disk", site.add("full")[1:], 4, None, ["nothing is kept"], preexec_fn=limit)
    told("24 nothing was kept by these", [] if modes_of(site.config) == left else [str(modes_of(site.config))])
    children = [subprocess.Popen(site.add("same"), env=site.env, stdout=subprocess.DEVNULL, stderr=subprocess.DEVNULL) for _ in range(6)]
    statuses = sorted(child.wait() for child in children)
    told("24 six runs that keep one name: one does", [] if statuses == [0] + [1] * 5 else [str(statuses)])
    site.tries("and it is removed", ["trust", "remove", "same"], 0, "")
    site.tries("`trust list` without a home", ["trust", "list"], 70, "", ["neither XDG_CONFIG_HOME nor HOME"], env={**site.env, "HOME": ""})
    site.tries("under a relative XDG_CONFIG_HOME", ["trust", "list"], 0, lambda text: text.startswith("one "), env={**site.env, "XDG_CONFIG_HOME": "x"})
    other = site.folder / "other config"
    site.tries("under another XDG_CONFIG_HOME", ["trust", "list"], 0, "", env={**site.env, "XDG_CONFIG_HOME": str(other)})


def verifies(site, recorder):
    """`verify` with defaults: the root, the copy of its repository, the store, and the bundle beside the artifact."""
    work = site.folder / "a folder"
    work.mkdir()
    (work / "app").write_text("app")
    (work / "app.sigstore.json").write_text("{}")
    recorder.answers(REPORT, 0)
    site.tries("`verify FILE`", ["verify", "app", *SIGNED], 0, REPORT, ["3 of 3"], at=work)
    wanted = {
        f"--root={site.config / 'one' / 'root.json'}",
        f"--repository={site.cache / 'one' / 'repository'}",
        f"--store={site.state / 'one'}",
        "--bundle=app.sigstore.json",
        "--artifact=app",
    }
    given = [word for word in recorder.runs("program")[0][1:] if not word.startswith(("--policy=", "--provider="))]
    told("24 and the program is handed what lacked", [] if set(given) == wanted and len(given) == len(wanted) else [str(given)])
    policy = "keyless\nidentity exact a@example.com\nissuer https://issuer.example.com\n"
    told("24 and the policy", [] if recorder.text("policy") == policy else [repr(recorder.text("policy"))])
    served = {path.relative_to(site.world / "repository") for path in (site.world / "repository").rglob("*") if path.is_file()}
    brought = {path.relative_to(site.cache / "one" / "repository") for path in (site.cache / "one" / "repository").rglob("*") if path.is_file()}
    told("24 the repository was brought", [] if brought == served else [str(brought ^ served)])
    folders = [site.cache, site.cache / "one", site.state, site.state / "one"]
    told("24 into folders of their owner", [str(path) for path in folders if stat.S_IMODE(path.stat().st_mode) != 0o700])

    def brings(what, more, status, does, err=(), **how):
        site.asked.clear()
        site.tries(f"`verify` {what}", ["verify", "app", *SIGNED, *more], status, REPORT if status == 0 else "", err, at=work, **how)
        told("24 which brings " + ("the repository" if does else "nothing"), [] if bool(site.asked) == does else [str(site.asked)])

    brings("once more", [], 0, False)
    brings("with --max-age=0", ["--max-age=0"], 0, True)
    brings("with --max-age=7d", ["--max-age=7d"], 0, False)
    stamp = site.cache / "one" / "brought"
    os.utime(stamp, (time.time() - 90000,) * 2)
    brings("offline, with an old copy", ["--offline"], 0, False)
    brings("with an old copy", [], 0, True)
    os.utime(stamp, (time.time() + 90000,) * 2)
    brings("with a copy of tomorrow", [], 0, True)
    stamp.write_text(stamp.read_text().replace("http", "https"))
    brings("with a copy from elsewhere", [], 0, True)
    (site.cache / "one" / "part.new").mkdir()
    (site.cache / "one" / "repository" / "9.root.json").write_text("{}")
    brings("with what a killed run left", ["--max-age=0"], 0, True)
    odd = [path for path in (site.cache / "one").rglob("*") if path.name in ("part.new", "part.old", "part.stamp", "9.root.json")]
    told("24 and nothing of that stays", list(map(str, odd)))
    kept = site.world / "repository" / "timestamp.json"
    kept.rename(site.world / "away")
    brings("where it can't be brought", ["--max-age=0"], 70, True, ["timestamp.json: absent", "can't be brought from http", "--offline goes by it"])
    brings("and offline", ["--offline"], 0, False)
    limit = lambda: resource.setrlimit(resource.RLIMIT_FSIZE, (0, 0))
    (site.world / "away").rename(kept)
    before = {path: path.read_bytes() for path in (site.cache / "one").rglob("*") if path.is_file()}
    site.tries("`verify` on a full disk", ["verify", "app", *SIGNED, "--max-age=0"], 70, "", ["can't be brought"], at=work, preexec_fn=limit)
    told("24 and the copy is as it was", [] if before == {path: path.read_bytes() for path in (site.cache / "one").rglob("*") if path.is_file()} else ["another copy"])
    children = [subprocess.Popen([site.command, "verify", "app", *SIGNED, "--max-age=0"], cwd=work, env=site.env, stdout=subprocess.PIPE, stderr=subprocess.PIPE) for _ in range(4)]
    ends = [(child.communicate()[0], child.returncode) for child in children]
    told("24 four runs at once that bring it", [str(end) for end in ends if end != (REPORT.encode(), 0)])
    return work


def finds(site, recorder, work):
    """Which root, which bundle and which artifact."""
    verify = ["verify", "app", *SIGNED]

    def of_bundle(what, words, wanted, status=0, err=(), more=()):
        recorder.answers(REPORT, 0)
        site.tries(f"`verify` {what}", [*words, *more], status, None, err, at=work)
        runs = recorder.runs("program")
        found = [word for word in runs[0] if word.startswith("--bundle")] if runs else []
        told("24 which takes " + str(wanted), [] if found == [wanted] else [str(found)])

    (work / "app.sigstore").write_text("{}")
    of_bundle("with two bundles", verify, "--bundle=app.sigstore.json", err=["beside it are app.sigstore.json and app.sigstore; app.sigstore.json is taken"])
    (work / "app.sigstore.json").unlink()
    of_bundle("with FILE.sigstore", verify, "--bundle=app.sigstore")
    (work / "app.sigstore").unlink()
    (work / "app.sigstore.jsonl").write_text("{}\n")
    of_bundle("with FILE.sigstore.jsonl", verify, "--bundles=app.sigstore.jsonl")
    for name in ("x", "x y"):
        (work / name).write_text("{}\n")
    of_bundle("with --bundle", verify, "--bundle=x y", 0, more=["--bundle=x y"])
    of_bundle("with --bundles", verify, "--bundles=x", 0, more=["--bundles=x"])
    (work / "app.sigstore.jsonl").unlink()
    site.tries("`verify` without a bundle", verify, None, None, ["no bundle lies beside it, as app.sigstore.json", "input bundle app.sigstore.json: No such file"], at=work)
    (work / "app.sigstore.json").write_text("{}")
    run(site.add("two", f"--url={site.url}"), work, env=site.env)
    site.tries("`verify` with two roots", verify, 2, "usage\n", ["several roots are kept: one, two; --trust=NAME"], at=work)
    site.tries("`verify --trust`", [*verify, "--trust=two"], 0, REPORT, at=work)
    site.tries("`verify --trust` of no name", [*verify, "--trust=three"], 3, "input root\n", ["no root is kept as three; kept are: one, two"], at=work)
    site.tries("the same as JSON", [*verify, "--trust=three", "--json"], 3, '{"status": 3, "answer": "input", "file": "root"}\n', at=work)
    site.tries("`verify --trust=../one`", [*verify, "--trust=../one"], 2, "usage\n", ["is no name"], at=work)
    (site.config / "two").chmod(0o777)
    site.tries("`verify` under a root that all may write", [*verify, "--trust=two"], 3, "input root\n", ["somebody else may write it"], at=work)
    site.tries("`trust remove` of it", ["trust", "remove", "two"], 0, "", [f"its store {site.state / 'two'} stays"])
    told("24 the copy is gone, and the store is there", [str(path) for path, is_there in ((site.cache / "two", False), (site.state / "two", True)) if path.exists() != is_there])
    run(site.add("plain"), work, env=site.env)
    site.tries("`verify` under a root without an address", [*verify, "--trust=plain"], 70, "", ["has no address of a repository"], at=work)
    site.tries("which has a repository", [*verify, "--trust=plain", f"--repository={site.world / 'repository'}"], 0, REPORT, at=work)
    run([site.command, "trust", "remove", "plain"], work, env=site.env)
    explicit = [f"--root={site.world / 'root.json'}", f"--repository={site.world / 'repository'}", f"--store={work / 'store'}"]
    site.tries("`verify` with each place told", [*verify, *explicit], 0, REPORT, at=work, env={**site.env, "HOME": ""})
    site.tries("`verify --root` alone", [*verify, explicit[0]], 2, "usage\n", ["beside --root there have to be"], at=work)
    recorder.answers(REPORT, 0)
    site.tries("`verify --digest`", ["verify", f"--digest=sha256:{'0' * 64}", "--bundle=app.sigstore.json", *SIGNED, "--details", "--now=2030-01-01T00:00:00Z"], 0, REPORT, at=work)
    told("24 which is handed on", [] if {f"--digest=sha256:{'0' * 64}", "--details", "--now=2030-01-01T00:00:00Z"} <= set(recorder.runs("program")[0]) else ["it isn't"])


def several(site, recorder, work):
    """Several artifacts, and names that a shell would take for something else."""
    names = ["a b", "new\nline", "quote'\"$(x)`y`", "*", "Zürich", "-dash", "back\\slash", "app"]
    for name in names:
        (work / name).write_text("x")
        (work / f"{name}.sigstore.json").write_text("{}")
    recorder.answers(REPORT, 0)
    shown = ["a b", "new\\x0aline", "quote'\"$(x)`y`", "*", "Z\\xc3\\xbcrich", "-dash", "back\\x5cslash", "app"]
    wanted = "".join(f"file {name}\n{REPORT}" for name in shown)
    site.tries("`verify` of files with odd names", ["verify", *SIGNED, "--", *names], 0, wanted, silent=["not found"], at=work)
    given = [next(word for word in words if word.startswith("--artifact=")) for words in recorder.runs("program")]
    told("24 each by its name", [] if given == [f"--artifact={name}" for name in names] else [str(given)])
    for name in names:
        site.tries(f"`verify` of {name!r} alone", ["verify", *SIGNED, f"--artifact={name}"], 0, REPORT, at=work)
    (work / "bad").write_text("x")
    (work / "bad.sigstore.json").write_text("{}")
    text = f"file app\n{REPORT}file bad\nrefused verify 4 ArtifactMismatch\nfile a b\n{REPORT}"
    site.tries("`verify` of a refused one among others", ["verify", "app", "bad", "a b", *SIGNED], 1, text, ["Cause: "], at=work)
    recorder.answers((site.clone / "crates" / "program_verify" / "stdout").read_text(), 0)

    def are_objects(text):
        found = list(map(json.loads, text.splitlines()))
        return [(it["file"], it["status"], it["answer"]) for it in found] == [("bad", 1, "refused"), ("Zürich", 0, "accepted")]

    site.tries("the same as JSON", ["verify", "bad", "Zürich", *SIGNED, "--json"], 1, are_objects, at=work)
    recorder.answers("", 5)
    site.tries("`verify` out of memory, beside a refused one", ["verify", "app", "bad", *SIGNED], 5, "file app\nfile bad\nrefused verify 4 ArtifactMismatch\n", at=work)
    recorder.answers(REPORT, 0)
    full = f"exec {site.command} verify app bad {' '.join(SIGNED)} >/dev/full"
    tried("24 `verify` where standard output is full", ["sh", "-c", full], work, 4, None, ["standard output: No space left"], ["Traceback"], env=site.env)
    left = [path.name for path in (site.folder / "tmp").iterdir()]
    told("24 no temporary file stays", left)


GITHUB = "keyless\nidentity uri-like https://github.com/o/r.x/.github/workflows/{}@refs/tags/{}\nissuer https://token.actions.githubusercontent.com\n"


def policies(site):
    """Policies in words, as `--print-policy` shows them."""
    pem, private = site.folder / "key file.pem", site.folder / "private.pem"
    private.write_bytes(subprocess.run(["openssl", "genpkey", "-algorithm", "EC", "-pkeyopt", "ec_paramgen_curve:P-256"], capture_output=True, check=True).stdout)
    public = ["openssl", "pkey", "-in", str(private), "-pubout"]
    pem.write_bytes(subprocess.run(public, capture_output=True, check=True).stdout)
    key = base64.b64encode(subprocess.run([*public, "-outform", "DER"], capture_output=True, check=True).stdout).decode()
    (site.folder / "two.pem").write_bytes(pem.read_bytes() * 2)
    issuer = SIGNED[1]
    for words, text in (
        ([f"--key={pem}"], f"key {key}\n"),
        ([f"--key={pem}", "--predicate=https://slsa.dev/provenance/v1"], f"key {key}\npredicate https://slsa.dev/provenance/v1\n"),
        (SIGNED, "keyless\nidentity exact a@example.com\nissuer https://issuer.example.com\n"),
        (["--identity-like=*@example.com", issuer], "keyless\nidentity email-like *@example.com\nissuer https://issuer.example.com\n"),
        (["--identity-like=https://x/**@v*", issuer], "keyless\nidentity uri-like https://x/**@v*\nissuer https://issuer.example.com\n"),
        (["--claim=build-trigger=a = b", issuer], "keyless\nissuer https://issuer.example.com\nclaim build-trigger a = b\n"),
        (["--claim", "build-trigger=push", "--claim=runner-environment=x", issuer], "keyless\nissuer https://issuer.example.com\nclaim build-trigger push\nclaim runner-environment x\n"),
        (["--github=o/r.x"], GITHUB.format("release.yml", "v*")),
        (["--github=o/r.x", "--workflow=b.yaml", "--tag-like=1.?"], GITHUB.format("b.yaml", "1.?")),
        (["--github=o/r.x", "--claim=runner-environment=github-hosted"], GITHUB.format("release.yml", "v*") + "claim runner-environment github-hosted\n"),
        (["--identity=Zürich $(x)", issuer], "keyless\nidentity exact Zürich $(x)\nissuer https://issuer.example.com\n"),
    ):
        site.tries(f"`--print-policy` of {' '.join(words)!r}", ["verify", *words, "--print-policy"], 0, text)
    for words, says in (
        (["--identity=a"], "--issuer=TEXT is missing"),
        ([issuer], "nobody is named"),
        (["--predicate=x"], "--issuer=TEXT is missing"),
        (["--identity=a\nanyone", issuer], "has a line feed"),
        (["--github=o/r", "--tag-like=v*\nor\nkeyless"], "has a line feed"),
        (["--identity-like=**", issuer], "neither an address (with @) nor a URI"),
        (["--claim=build-trigger", issuer], "is written --claim=NAME=TEXT"),
        (["--claim=a b=c", issuer], "is written --claim=NAME=TEXT"),
        (["--github=o"], "is no OWNER/REPOSITORY"),
        (["--github=o/r/x"], "is no OWNER/REPOSITORY"),
        (["--github=*/r"], "is no OWNER/REPOSITORY"),
        (["--github=o/r", "--workflow=*"], "is no file's name"),
        (["--workflow=release.yml", *SIGNED], "--workflow needs --github"),
        (["--tag-like=v*", *SIGNED], "--tag-like needs --github"),
        (["--github=o/r", issuer], "--github and --issuer exclude one another"),
        ([f"--key={pem}", issuer], "--key and --issuer exclude one another"),
        (["--identity=a", "--identity-like=b", issuer], "--identity and --identity-like exclude one another"),
        (["--policy=x"], "--policy and --print-policy exclude one another"),
        (["--identity=", issuer], "the word --identity has an empty value"),
        (["--identity", issuer], "is written --identity=VALUE"),
        (["--identity=a", "--identity=b", issuer], "the word --identity stands twice"),
        (["--print-policy", *SIGNED], "the word --print-policy stands twice"),
        (["--skip-tlog", *SIGNED], "there is no word --skip-tlog"),
        ([], "who signs isn't said"),
    ):
        site.tries(f"`--print-policy` of {' '.join(words)!r}", ["verify", *words, "--print-policy"], 2, "usage\n", [says])
    for path, says in ((private, "it is a private key"), (site.folder / "two.pem", "no PEM text of one PUBLIC KEY"), (site.folder, "ratmanganese: key "), (site.folder / "nope", "No such file")):
        site.tries(f"`--key={path.name}`", ["verify", f"--key={path}", "--print-policy"], 3, None, [says])


def faults(site, work):
    """Words of `verify` that exclude one another, or say nothing."""
    for words, says in (
        (["app", "--policy=x", "--trust=one", "--root=y"], "--trust and --root exclude one another"),
        (["app", "--policy=x", "--trusted-root=y", "--trust=one"], "--trust and --trusted-root exclude one another"),
        (["app", "--policy=x", "--trusted-root=y", "--store=z"], "--trusted-root and --store exclude one another"),
        (["app", "--policy=x", "--archive=y", "--repository=z"], "--archive and --repository exclude one another"),
        (["app", "--policy=x", "--bundle=y", "--bundles=z"], "--bundle and --bundles exclude one another"),
        (["app", "--policy=x", "--digest=sha256:00", "--bundle=y"], "--digest and --artifact exclude one another"),
        (["app", "--policy=x", "--github=o/r"], "--policy and --github exclude one another"),
        (["app", "--policy=x", "--offline", "--max-age=1"], "--offline and --max-age exclude one another"),
        (["app", "--policy=x", "--repository=y", "--max-age=1"], "--repository and --max-age exclude one another"),
        (["app", "--policy=x", "--max-age=1w"], "--max-age=1w is no time"),
        (["app", "bad", "--policy=x", "--statement=y"], "--statement is for one artifact"),
        (["--policy=x"], "no artifact is named"),
        (["--policy=x", "--digest=sha256:00"], "with --digest the bundle is named"),
        (["app"], "who signs isn't said"),
        (["", "--policy=x"], "an artifact's name is empty"),
        (["app", "--policy=x", "--verbose"], "there is no word --verbose"),
        (["app", "--policy=x", "-v"], "there is no word -v"),
        (["app", "--policy=x", "--offline=1"], "the word --offline takes no value"),
    ):
        site.tries(f"`verify {' '.join(words)}`", ["verify", *words], 2, "usage\n", [says], at=work)
    site.tries("the same as JSON", ["verify", "app", "--json"], 2, '{"status": 2, "answer": "usage", "file": null}\n', at=work)
    site.tries("`verify` with a provider file, as before", ["verify", "--provider=x"], 0, REPORT, at=work)
    site.tries("`verify --help`", ["verify", "--help"], 0, lambda text: "--github=OWNER/REPOSITORY" in text)
    site.tries("`trust --help`", ["trust", "--help"], 0, lambda text: "trust add NAME --root=FILE" in text)


def rows(clone, world, program_at, questions_at, notes, folder):
    """24: each of these."""
    recorder = Recorder(clone, program_at, questions_at, notes)
    recorder.answers(REPORT, 0)
    site = Site(clone, world, folder)
    (folder / "tmp").mkdir()
    site.env["TMPDIR"] = str(folder / "tmp")
    try:
        keeps(site)
        stumbles(site)
        work = verifies(site, recorder)
        finds(site, recorder, work)
        several(site, recorder, work)
        policies(site)
        recorder.answers(REPORT, 0)
        faults(site, work)
    finally:
        site.server.shutdown()
