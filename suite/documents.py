"""TUF documents of worlds, signed. (No script: suite/make and conformance/cases make their repositories by it.)

A repository is made whole from its root to its targets. What a world changes is handed in as functions by the place where
they change something: what is signed (`content`), by whom (`signers`), the signatures (`signatures`), the octets that
the document above pins (`octets`), and those that are served in their place (`served`).
"""
import hashlib
import json

from keys import Key

FAR, PAST = "2036-01-01T00:00:00Z", "2024-03-01T00:00:00Z"
ROLES = ("root", "timestamp", "snapshot", "targets")
SCHEMES = {"ed25519": "ed25519", "p256": "ecdsa-sha2-nistp256", "p384": "ecdsa-sha2-nistp384", "rsa": "rsassa-pss-sha256"}
TYPES = {"ed25519": "ed25519", "p256": "ecdsa", "p384": "ecdsa", "rsa": "rsa"}


def text(value):
    """The canonical text: members in ascending order, no blanks, and only `"` and `\\` escaped."""
    if isinstance(value, dict):
        return "{" + ",".join(f"{text(k)}:{text(v)}" for k, v in sorted(value.items(), key=lambda it: it[0].encode())) + "}"
    if isinstance(value, list):
        return "[" + ",".join(map(text, value)) + "]"
    if isinstance(value, str):
        return '"' + value.replace("\\", "\\\\").replace('"', '\\"') + '"'
    return json.dumps(value)


class Signer:
    """A key of a role, as a root declares it, and its id."""

    def __init__(self, sort, *labels):
        self.key = Key(sort, "role", *labels)
        public = self.key.spki[-32:].hex() if sort == "ed25519" else self.key.pem
        self.declared = {"keytype": TYPES[sort], "scheme": SCHEMES[sort], "keyval": {"public": public}}
        self.id = hashlib.sha256(text(self.declared).encode()).hexdigest()

    def sign(self, message):
        return self.key.sign_pss(message) if self.key.sort == "rsa" else self.key.sign(message)

    def called(self, name):
        """The same key under another id."""
        other = object.__new__(Signer)
        other.key, other.declared, other.id = self.key, self.declared, name
        return other


def content(kind, version, expires, **members):
    return {"_type": kind, "spec_version": "1.0.31", "version": version, "expires": expires, **members}


def signed_by(signed, signers):
    """The signatures of these signers over what is signed."""
    message = text(signed).encode()
    return [{"keyid": signer.id, "sig": signer.sign(message).hex()} for signer in signers]


def written(signed, signatures):
    return (json.dumps({"signatures": signatures, "signed": signed}, indent=1) + "\n").encode()


def digests(octets, *algorithms):
    return {name: hashlib.new(name, octets).hexdigest() for name in algorithms or ("sha256",)}


def listed(octets):
    return {"length": len(octets), "hashes": digests(octets)}


class Repository:
    """A repository's documents. The roots are those of the numbers from 1 to `last`, of which 1 is the pinned one; `signers`
    has the signers of each role in each root, `thresholds` how many of them are asked for."""

    def __init__(self, *labels, sorts=None, count=1, threshold=1, last=1, consistent=True, versions=None, whole_pins=True):
        sorts = {**dict.fromkeys(ROLES, "ed25519"), **(sorts or {})}
        self.labels, self.sorts, self.last, self.consistent, self.whole_pins = labels, sorts, last, consistent, whole_pins
        self.signers = {role: [self.signer(role, number) for number in range(count)] for role in ROLES}
        self.thresholds = dict.fromkeys(ROLES, threshold)
        self.versions = versions or {"timestamp": 5, "snapshot": 4, "targets": 3}
        self.expires = {}
        self.changes = {}
        # What replaces the signers of roles in a root, by its number: the root before it signs that one too.
        self.rotated = {}
        # Roles that the targets document delegates to: each a dictionary (see `delegate`).
        self.delegated = []
        self.targets = {}

    def signer(self, role, number, sort=None):
        return Signer(sort or self.sorts.get(role, "ed25519"), *self.labels, role, number)

    def change(self, place, kind, function):
        """Has a function change what is made at a place of a document: a root is `root N`, a delegated role its name."""
        self.changes.setdefault((place, kind), []).append(function)

    def changed(self, place, kind, value):
        for function in self.changes.get((place, kind), ()):
            value = function(value)
        return value

    def document(self, kind, signed, signers):
        signed = self.changed("content", kind, signed)
        signatures = self.changed("signatures", kind, signed_by(signed, self.changed("signers", kind, signers)))
        return self.changed("octets", kind, written(signed, signatures))

    def pin(self, octets, version):
        return {**listed(octets), "version": version} if self.whole_pins else {"version": version}

    def delegate(self, name, paths=None, terminating=False, signers=None, version=2, targets=None, **more):
        """Has the targets document delegate paths to a role, which lists these targets."""
        self.delegated.append({"name": name, "paths": paths or ["trusted_root.json"], "terminating": terminating,
                               "signers": signers or [self.signer(name, 0)], "version": version, "targets": targets or {}, **more})

    def roots(self):
        """The roots by their numbers."""
        made, signers = {}, dict(self.signers)
        before = []
        for number in range(1, self.last + 1):
            signers = {**signers, **self.rotated.get(number, {})}
            declared = {it.id: it.declared for role in ROLES for it in signers[role]}
            roles = {role: {"keyids": [it.id for it in signers[role]], "threshold": self.thresholds[role]} for role in ROLES}
            signed = content("root", number, self.expires.get(f"root {number}", FAR), consistent_snapshot=self.consistent, keys=declared, roles=roles)
            # (each signer once, though both roots have them)
            by = {it.id: it for it in [*before, *signers["root"]]}
            made[number] = self.document(f"root {number}", signed, list(by.values()))
            before = signers["root"]
        self.in_force = signers
        return made

    def role_documents(self):
        made = {}
        for role in self.delegated:
            targets = {path: listed(octets) for path, octets in role["targets"].items()}
            signed = content("targets", role["version"], self.expires.get(role["name"], FAR), targets=targets)
            made[role["name"]] = self.document(role["name"], signed, role["signers"])
        return made

    def delegations(self):
        if not self.delegated:
            return {}
        declared = {it.id: it.declared for role in self.delegated for it in role["signers"]}
        roles = [{"name": role["name"], "keyids": [it.id for it in role["signers"]], "threshold": role.get("threshold", 1),
                  "terminating": role["terminating"], "paths": role["paths"]} for role in self.delegated]
        return {"delegations": {"keys": declared, "roles": roles}}

    def named(self, version, name):
        return f"{version}.{name}" if self.consistent else name

    def target_files(self, targets):
        files = {}
        for path, octets in targets.items():
            folder, _, name = path.rpartition("/")
            name = f"{hashlib.sha256(octets).hexdigest()}.{name}" if self.consistent else name
            files[f"targets/{folder}/{name}" if folder else f"targets/{name}"] = self.changed("served", f"target {path}", octets)
        return files

    def files(self):
        """The first root, and the files of the repository by their names; one whose octets are none isn't there."""
        roots, roles = self.roots(), self.role_documents()
        signers = self.in_force
        versions = self.versions
        listing = {path: listed(octets) for path, octets in self.targets.items()}
        signed = content("targets", versions["targets"], self.expires.get("targets", FAR), targets=listing, **self.delegations())
        targets = self.document("targets", signed, signers["targets"])
        meta = {"targets.json": self.pin(targets, versions["targets"])}
        for role in self.delegated:
            meta[f"{role['name']}.json"] = self.pin(roles[role["name"]], role["version"])
        signed = content("snapshot", versions["snapshot"], self.expires.get("snapshot", FAR), meta=meta)
        snapshot = self.document("snapshot", signed, signers["snapshot"])
        meta = {"snapshot.json": self.pin(snapshot, versions["snapshot"])}
        signed = content("timestamp", versions["timestamp"], self.expires.get("timestamp", FAR), meta=meta)
        timestamp = self.document("timestamp", signed, signers["timestamp"])
        made = {f"{number}.root.json": self.changed("served", f"root {number}", octets) for number, octets in roots.items()}
        made["timestamp.json"] = self.changed("served", "timestamp", timestamp)
        made[self.named(versions["snapshot"], "snapshot.json")] = self.changed("served", "snapshot", snapshot)
        made[self.named(versions["targets"], "targets.json")] = self.changed("served", "targets", targets)
        for role in self.delegated:
            name = role.get("file") or f"{role['name']}.json"
            made[self.named(role["version"], name)] = self.changed("served", role["name"], roles[role["name"]])
            made |= self.target_files(role["targets"])
        made |= self.target_files(self.targets)
        return roots[1], {name: octets for name, octets in made.items() if octets is not None}
