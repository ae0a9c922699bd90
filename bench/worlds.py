"""Files of worlds for crates/world_tests. (No script: those that make worlds write them by it.)

A file has a world a line, an object of JSON:

    name      what it changes
    base      the name of the world whose files it has where it hasn't one itself
    now       the moment of the run; words, in its place, are all the words of the run
    files     texts by their paths: root.json, repository/.., store/.., archive, bundle.json, artifact, policy, provider;
              one that is null isn't there
    handed    `blob` or `digest`: how the artifact is handed to the library that judges a bundle, which is tried alone, and
    most      how many bytes of the artifact that library reads; without either the run of `verify` is tried
    status    how the run of `verify` is to end, and
    answer    what it is to write
    lines     lines that have to stand in what it writes or in what is found beside it: `refusal`, with its number and all
              that it holds; `certificate`, with its window and its key; `result`, with the names, what was looked at and the
              times; `scts` and `logs`, how many vouched
    failing   of an object (inputs, repository, store, archive, artifact, sink) the number of the call that fails; the artifact
              is read two bytes at a time
    step      how many bytes of the artifact a read gives, 2 where it is not told; and
    room      how many bytes the sink takes
"""
import datetime
import hashlib
import json
import pathlib
import re
import subprocess
import sys

TOP = pathlib.Path(__file__).resolve().parent.parent
DATA = TOP / "crates" / "world_tests" / "data"
sys.path.insert(0, str(TOP / "examples"))
from keyless import openssl, spelled

FAR = "2036-01-01T00:00:00Z"
# What stands before the seed of an Ed25519 key in PKCS #8 (RFC 8410, section 7).
PKCS8 = bytes.fromhex("302e020100300506032b657004220420")
TRUST = "repository/targets/trusted_root.json"


def canonical(value):
    return json.dumps(value, sort_keys=True, separators=(",", ":")).encode()


class Role:
    """A role's key."""

    def __init__(self, folder, name):
        self.path = pathlib.Path(folder, name)
        self.path.write_bytes(PKCS8 + hashlib.sha256(name.encode()).digest())
        words = ["pkey", "-inform", "DER", "-in", str(self.path), "-pubout", "-outform", "DER"]
        self.raw = openssl(*words)[-32:]
        self.declared = {"keytype": "ed25519", "scheme": "ed25519", "keyval": {"public": self.raw.hex()}}
        self.id = hashlib.sha256(canonical(self.declared)).hexdigest()

    def document(self, kind, rows, **members):
        """A document of version 1, signed, whose signature has a row."""
        signed = {"_type": kind, "spec_version": "1.0.31", "version": 1, "expires": FAR, **members}
        message = canonical(signed)
        given = self.path.with_suffix(".message")
        given.write_bytes(message)
        signature = openssl("pkeyutl", "-sign", "-keyform", "DER", "-inkey", str(self.path), "-rawin", "-in", str(given))
        rows.append(f"accept ED25519 {spelled(self.raw)} {spelled(message)} {spelled(signature)}")
        return json.dumps({"signatures": [{"keyid": self.id, "sig": signature.hex()}], "signed": signed})


class Repository:
    """The documents around one trust file after another, whose snapshot pins the targets by their version alone."""

    def __init__(self, folder):
        self.rows = []
        self.roles = {name: Role(folder, name) for name in ("root", "timestamp", "snapshot", "targets")}
        keys = {role.id: role.declared for role in self.roles.values()}
        roles = {name: {"keyids": [role.id], "threshold": 1} for name, role in self.roles.items()}
        self.root = self.document("root", keys=keys, roles=roles, consistent_snapshot=False)
        meta = {"version": 1}
        self.timestamp = self.document("timestamp", meta={"snapshot.json": meta})
        self.snapshot = self.document("snapshot", meta={"targets.json": meta})
        self.listed, self.signed, self.fixed_rows = {}, {}, list(self.rows)

    def rows_around(self, trust):
        """The rows of the documents around a trust file, which was asked for."""
        return [*self.fixed_rows, self.signed[trust]]

    def document(self, kind, **members):
        return self.roles[kind].document(kind, self.rows, **members)

    def fixed(self):
        """The files that no trust file changes."""
        return {"root.json": self.root, "repository/timestamp.json": self.timestamp, "repository/snapshot.json": self.snapshot}

    def files(self, trust):
        """The files that a trust file changes."""
        if trust not in self.listed:
            octets = trust.encode()
            pin = {"length": len(octets), "hashes": {"sha256": hashlib.sha256(octets).hexdigest()}}
            self.listed[trust] = self.document("targets", targets={"trusted_root.json": pin})
            self.signed[trust] = self.rows[-1]
        return {TRUST: trust, "repository/targets.json": self.listed[trust]}


def names_of_refusals():
    """The names of the refusals of a bundle by their numbers, as docs/REFUSALS.md lists them."""
    section = (TOP / "docs" / "REFUSALS.md").read_text().split("## verify: the bundle")[1].split("\n## ")[0]
    names = {}
    for numbers, told in re.findall(r"^\| ([0-9, ]+) \| ([A-Za-z, ]+) \|", section, re.M):
        names.update(zip(numbers.split(", "), told.split(", ")))
    return names


def seconds(instant):
    """The seconds since 1970 of an instant."""
    return int(datetime.datetime.fromisoformat(instant.replace("Z", "+00:00")).timestamp())


def answered(rows):
    """The provider file of rows, each of which OpenSSL has to find good."""
    text = "".join(f"{row}\n" for row in dict.fromkeys(filter(None, rows)))
    done = subprocess.run([TOP / "openssl" / "answer"], input=text, capture_output=True, text=True, check=True)
    if done.stdout != text:
        sys.exit("OpenSSL doesn't find each signature good")
    return text


class Worlds:
    """The worlds of a file, the first of which is the base of the others."""

    def __init__(self, name, now, files):
        self.path, self.now, self.files = DATA / f"{name}.jsonl", now, files
        self.lines, self.names = [], []

    def add(self, name, files, status, answer=None, lines=(), now=None, **more):
        """Adds a world that differs from the base in these files alone; each has to differ."""
        for path, text in files.items():
            if text == self.files.get(path):
                raise ValueError(f"{name}: {path} isn't changed")
        if name in self.names:
            raise ValueError(f"two worlds are named {name}")
        world = {"name": name}
        if self.lines:
            world["base"] = self.names[0]
        else:
            files = self.files
        self.names.append(name)
        world |= {"now": now or self.now, "files": files}
        if status is not None:
            world["status"] = status
        if answer is not None:
            world["answer"] = answer
        if lines:
            world["lines"] = list(lines)
        self.lines.append(json.dumps({**world, **more}, ensure_ascii=False))

    def refuse(self, name, files, refusal, held=None, **more):
        """Adds a world that is refused so: by the layer, the number and the name; and what the refusal holds."""
        lines = [f"refusal {refusal.split()[1]} {held}"] if held else []
        self.add(name, files, 1, f"refused {refusal}\n", lines, **more)

    def write(self):
        self.path.parent.mkdir(exist_ok=True)
        self.path.write_text("".join(f"{line}\n" for line in self.lines))
        print(f"{self.path.name}: {len(self.lines)} worlds")
