"""The rows of bench/face on `verify --bundles` and `--details`: the scripts around the programs, which stand-ins take the place of."""
import base64
import hashlib
import json
import pathlib

from recorded import Recorder
from trying import run, told, tried, words_of

TOP = pathlib.Path(__file__).resolve().parent.parent
REPORT = (TOP / "crates" / "program_verify" / "stdout").read_text()
BEHIND = "bundle 3\npredicate https://example.org/p\nsubject a\\x0ab\nstamped 5\npromised 6\nlogs 1\nscts 2\nclaim build-trigger push it\n"
REFUSALS = "bundle 1\nrefused verify 4 ArtifactMismatch\nbundle 3\nrefused verify 1 IdentityMismatch\nor 23 UnsupportedBundle\n"


def rows_of(world):
    """Two rows that hold, and one of a signature that isn't good."""
    rows = (world / "rows").read_text().splitlines()
    first, second = [row for row in rows if row.startswith("armor ")][:2]
    scheme, key, _, signature = next(row for row in rows if row.startswith("accept ECDSA_P256_SHA256")).split(" ")[1:]
    return first, second, f"accept {scheme} {key} {base64.b64encode(bytes(32)).decode()} {signature}"


def asked(clone, world, recorder):
    """What is asked of lines, and what the run over them is handed."""
    first, second, bad = rows_of(world)
    lines = world / "lines of bundles"
    lines.write_text(f"{first}\n\n \t\r\n{second}\n{bad}\n{first}")
    recorder.answers(REPORT + BEHIND, 0)
    more = [f"--bundles={lines}", "--details", f"--statement={world / 'x y'}"]
    err = ["1 of 3", "again (round 2)", "3 of 3"]
    tried("23 `verify-real --bundles`", ["./verify-real", *words_of(world, bundle=None), *more], clone, 0, REPORT + BEHIND, err)
    given = recorder.runs("program")[0]
    told("23 the program is handed these words", [word for word in more if given.count(word) != 1])
    told("23 and of each line what holds, once", [] if recorder.text("provider") == f"{first}\n{second}\n" else [repr(recorder.text("provider"))])
    octets = (world / "release.txt").read_bytes()
    digests = {f"--digest={name}:{hashlib.new(name, octets).hexdigest()}" for name in ("sha256", "sha384", "sha512")}
    runs = recorder.runs("questions")
    told("23 the questions are asked over the artifact's digests", [str(words) for words in runs if not digests <= set(words) or any(word.startswith("--artifact") for word in words)])
    told("23 of no line and of four, in two rounds", [] if len(runs) == 10 else [str(len(runs))])
    digest = f"--digest=sha512:{'0' * 128}"
    tried("23 the same over a digest", ["./verify-real", *words_of(world, bundle=None, artifact=None), digest, *more], clone, 0, REPORT + BEHIND)
    told("23 which is asked for alone", [str(words) for words in recorder.runs("questions")[10:] if [word for word in words if word.startswith("--digest")] != [digest]])


def limits(clone, world, recorder):
    """Files that can't be taken, and what is said of them."""
    words = ["./verify-real", *words_of(world, bundle=None)]
    lines = world / "lines"
    recorder.answers("input bundle\n", 3)
    for what, put, says in (
        ("that isn't there", None, f"bundles {lines}: No such file"),
        ("that is too long", lambda: truncated(lines, 67108865), "longer than 67108864"),
    ):
        if put:
            put()
        tried(f"23 a file of bundles {what}", [*words, f"--bundles={lines}"], clone, 3, "input bundle\n", [says], ["2 of 3"])
    recorder.answers("refused bundles 2 TooManyBundles\n", 1)
    lines.write_text("x\n\n" * 1001)
    err = ["it has 1001 bundles, and at most 1000", "3 of 3", "Cause: "]
    tried("23 a file of 1001 bundles", [*words, f"--bundles={lines}"], clone, 1, "refused bundles 2 TooManyBundles\n", err)
    recorder.answers("refused bundles 1 NoBundle\n", 1)
    lines.write_text("\n \r\n")
    tried("23 a file of blank lines", [*words, f"--bundles={lines}"], clone, 1, "refused bundles 1 NoBundle\n", ["3 of 3", "Cause: "])
    tried("23 the same as JSON", [*words, f"--bundles={lines}", "--json"], clone, 1, lambda text: json.loads(text)["part"] == "bundles")
    recorder.answers("usage\n", 2)
    for what, more, says in (
        ("beside --bundle", [f"--bundle={lines}", f"--bundles={lines}"], "--bundles and --bundle exclude one another"),
        ("twice", [f"--bundles={lines}", "--bundles=x"], "--bundles stands twice"),
        ("with no file", ["--bundles="], "--bundles has an empty value"),
        ("and `--details=x`", [f"--bundles={lines}", "--details=x"], "--details takes no value"),
        ("and `--details` twice", [f"--bundles={lines}", "--details", "--details"], "--details stands twice"),
    ):
        tried(f"23 `--bundles` {what}", [*words, *more], clone, 2, "usage\n", [says])
    tried("23 `gate --details`", ["./verify-real", "gate", *words_of(world, bundle=None, artifact=None, folder=str(world)), "--details"], clone, None, None, ["gate has no details"])


def truncated(path, length):
    with open(path, "wb") as file:
        file.truncate(length)


def refusals(clone, world, recorder):
    """Where no line is accepted."""
    first, second, _ = rows_of(world)
    lines = world / "lines"
    lines.write_text(f"{first}\n\n{second}\n")
    recorder.answers(REFUSALS, 1)
    words = ["./verify-real", *words_of(world, bundle=None), f"--bundles={lines}"]
    parts = ("verify 4 ArtifactMismatch", "verify 1 IdentityMismatch", "verify 23 UnsupportedBundle")
    err = [f"refused {part}\nWhat it means: " for part in parts] + ["status 1 Refused\nText: "]
    tried("23 lines of which none is accepted", words, clone, 1, REFUSALS, err)
    wanted = [
        {"bundle": 1, "part": "verify", "number": 4, "name": "ArtifactMismatch"},
        {"bundle": 3, "part": "verify", "number": 1, "name": "IdentityMismatch", "or": [{"number": 23, "name": "UnsupportedBundle"}]},
    ]
    tried("23 the same as JSON", [*words, "--json"], clone, 1, lambda text: json.loads(text) == {"status": 1, "answer": "refused", "bundles": wanted})
    recorder.answers("refused tuf 12 Expired\n", 1)
    tried("23 lines under no trusted chain", words, clone, 1, "refused tuf 12 Expired\n", ["refused tuf 12 Expired\nWhat it means: "])


def as_json():
    """`scripts/as_json` over what stands behind a report, and over lines that are none of it."""
    script = TOP / "scripts" / "as_json"
    wanted = {"bundle": 3, "predicate": "https://example.org/p", "subject": "a\nb", "stamped": [5], "promised": [6], "logs": 1, "scts": 2}
    wanted["claims"] = {"build-trigger": "push it"}
    done = run([script, "0"], TOP, input=f"{REPORT}rule 2\nread no\n{BEHIND}")
    found = json.loads(done.stdout) if done.returncode == 0 else {}
    told("23 `as_json` of the details", [f"{name}: {found.get(name)}" for name in (*wanted, "rule") if found.get(name) != {**wanted, "rule": 2}[name]])
    for behind in (
        "bundle 3\nbundle 4\n",
        "bundle x\n",
        "bundle\n",
        "bundle 3\nrule 2\n",
        "logs 1\nbundle 3\n",
        "scts 1\nlogs 1\n",
        "logs 1\nlogs 1\n",
        "subject a\npredicate b\n",
        "stamped x\n",
        "claim build-trigger a\nclaim build-trigger b\n",
        "claim Build a\n",
        "details\n",
    ):
        tried(f"23 `as_json` of {behind!r} behind a report", [script, "0"], TOP, 1, "", ["as_json: no answer"], input=REPORT + behind)
    for text in ("bundle 1\n", "bundle 1\nbundle 2\nrefused verify 4 ArtifactMismatch\n", "bundle 2\nrefused verify 4 A\nbundle 1\nrefused verify 4 A\n", "bundle 1\nrefused tuf 12 Expired\n"):
        tried(f"23 `as_json` of {text!r}", [script, "1"], TOP, 1, "", ["as_json: no answer"], input=text)


def rows(clone, world, program_at, questions_at, notes):
    """23: each of these."""
    recorder = Recorder(clone, program_at, questions_at, notes)
    for part in (asked, limits, refusals):
        part(clone, world, recorder)
    as_json()
