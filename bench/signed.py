"""A folder for the built program: documents that are signed, and the provider file that says so."""
import base64
import hashlib
import json
import pathlib
import shutil
import subprocess
import sys

CRATES = pathlib.Path(__file__).resolve().parent.parent / "crates"
APP = CRATES / "program_verify"
PROGRAM = APP / "out" / "program_verify"
ASKING = CRATES / "program_questions"
QUESTIONS = ASKING / "out" / "program_questions"
RAW_KEY = b"\x04" + bytes(64)
# A SubjectPublicKeyInfo of P-256.
SPKI = bytes.fromhex("3059301306072a8648ce3d020106082a8648ce3d030107034200") + RAW_KEY
ROLE = {"keyids": ["k"], "threshold": 1}


def text(value):
    """A document's bytes: members in ascending order, no blanks."""
    return json.dumps(value, sort_keys=True, separators=(",", ":")).encode()


def canonical(value):
    """The canonical text, in which line feeds stand as they are. (No other character here is escaped.)"""
    return text(value).replace(b"\\n", b"\n")


def spelled(octets):
    return base64.b64encode(octets).decode()


def armored(octets):
    """A public key in the strict form of RFC 7468."""
    body = spelled(octets)
    lines = [body[start : start + 64] for start in range(0, len(body), 64)]
    return "\n".join(["-----BEGIN PUBLIC KEY-----", *lines, "-----END PUBLIC KEY-----"])


PEM = armored(SPKI)
KEY = {"keytype": "ecdsa", "keyval": {"public": PEM}, "scheme": "ecdsa-sha2-nistp256"}


def accept(signed):
    """The provider's row for the signature 01 of these bytes."""
    subject = spelled(hashlib.sha256(signed).digest())
    return f"accept ECDSA_P256_SHA256 {spelled(RAW_KEY)} {subject} AQ=="


class Place:
    """A folder with the program's files, and repositories in it."""

    def __init__(self, folder, repositories, trust=b"{}"):
        self.folder = pathlib.Path(folder)
        self.trust = trust
        self.rows = [f"armor key {spelled(PEM.encode())} {spelled(SPKI)}"]
        self.rows.append(accept((APP / "data" / "artifact").read_bytes()))
        for name in ("artifact", "bundle.json", "policy"):
            shutil.copy(APP / "data" / name, self.folder)
        for name in repositories:
            (self.folder / name / "targets").mkdir(parents=True)
            (self.folder / name / "targets" / "trusted_root.json").write_bytes(trust)

    def put(self, name, kind, version, members, signers=("k",)):
        """Puts a document, with a signature of each of these ids."""
        content = {
            "_type": kind,
            "expires": "2030-01-01T00:00:00Z",
            "spec_version": "1.0.0",
            "version": version,
            **members,
        }
        signatures = [{"keyid": key, "sig": "01"} for key in signers]
        (self.folder / name).write_bytes(text({"signatures": signatures, "signed": content}))
        self.rows.append(accept(canonical(content)))

    def put_root(self, name, version=1, roles=(), with_keys=(), signers=("k",), **more):
        """Puts a root in which these ids have a key, and these roles another role than that of `k`."""
        usual = dict.fromkeys(("root", "timestamp", "snapshot", "targets"), ROLE)
        members = {
            "consistent_snapshot": False,
            "keys": dict.fromkeys(("k", *with_keys), KEY),
            "roles": {**usual, **dict(roles)},
        }
        self.put(name, "root", version, {**members, **more}, signers)

    def put_timestamp(self, folder, version=1, signers=("k",), **more):
        meta = {"snapshot.json": {"version": version}}
        self.put(f"{folder}/timestamp.json", "timestamp", version, {"meta": meta, **more}, signers)

    def put_snapshot(self, folder, version=1, pins=(), **more):
        meta = dict.fromkeys((*pins, "targets.json"), {"version": version})
        self.put(f"{folder}/snapshot.json", "snapshot", version, {"meta": meta, **more})

    def put_targets(self, folder, version=1, paths=(), signers=("k",), **more):
        """Puts a targets document, which lists the trust file under its own path and under these."""
        digest = hashlib.sha256(self.trust).hexdigest()
        listed = {"hashes": {"sha256": digest}, "length": len(self.trust)}
        files = dict.fromkeys((*paths, "trusted_root.json"), listed)
        self.put(f"{folder}/targets.json", "targets", version, {"targets": files, **more}, signers)

    def write_provider(self):
        (self.folder / "provider").write_text("".join(f"{row}\n" for row in self.rows))

    def start(self, repository):
        """Starts the program over a repository."""
        words = (APP / "args").read_text().split()
        given = [f"--repository={repository}" if "repository" in word else word for word in words]
        pipe = subprocess.PIPE
        return subprocess.Popen([PROGRAM, *given], cwd=self.folder, stdout=pipe, text=True)

    def ask(self, repository, refused="/dev/null"):
        """The lines of the questions program over a repository, where the signatures of a file aren't good."""
        words = (APP / "args").read_text().split()
        words = ["questions"] + [word for word in words if "--provider" not in word and word != "verify"]
        words.append(f"--refused={refused}")
        given = [f"--repository={repository}" if "repository" in word else word for word in words]
        done = subprocess.run([QUESTIONS, *given], cwd=self.folder, capture_output=True, text=True, check=True)
        return done.stdout.splitlines()


def check_built():
    if not PROGRAM.exists() or not QUESTIONS.exists():
        sys.exit("the programs aren't built: run ./ratmanganese build first")
