"""What bench/face tries with: it runs words, compares what they come to, and prints a line for each thing."""
import json
import subprocess
import time

FAILED = []


def told(what, wrong):
    FAILED.extend(wrong)
    print(f"{what}: " + ("WRONG: " + "; ".join(wrong) if wrong else "ok"), flush=True)


def run(words, folder, **more):
    start = time.monotonic()
    done = subprocess.run(words, cwd=folder, capture_output=True, text=True, timeout=600, check=False, **more)
    done.seconds = time.monotonic() - start
    return done


def tried(what, words, folder, status, out=None, err=(), silent=(), seconds=60, **more):
    """Runs words, and compares the status, the text on standard output and what stands on standard error."""
    done = run(words, folder, **more)
    wrong = []
    if status is not None and done.returncode != status:
        wrong.append(f"status {done.returncode}, not {status}")
    if out is not None and not (out(done.stdout) if callable(out) else done.stdout == out):
        wrong.append(f"standard output {done.stdout[:200]!r}")
    wrong += [f"nothing of {part!r} on standard error: {done.stderr[-600:]!r}" for part in err if part not in done.stderr]
    wrong += [f"{part!r} on standard error" for part in silent if part in done.stderr]
    if done.seconds > seconds:
        wrong.append(f"{done.seconds:.0f} s")
    told(what, wrong)
    return done


def words_of(world, **other):
    """The words of a verification of a world, with others in the place of some."""
    paths = {"root": "root.json", "repository": "repository", "store": "store", "bundle": "bundle.json"}
    paths |= {"artifact": "release.txt", "policy": "policy"}
    words = {name: str(world / path) for name, path in paths.items()} | other
    return [f"--{name}={value}" for name, value in words.items() if value is not None]


def is_json_of(status, answer):
    def holds(text):
        found = json.loads(text)
        return found["status"] == status and found["answer"] == answer and text.count("\n") == 1

    return holds
