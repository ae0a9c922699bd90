"""A TUF repository of a signer's own, with real signatures: targets of the top-level role, and targets of a role that it
delegates `apps/*` to. Keys and signatures are made by OpenSSL, as in examples/make_world; each role has one key, Ed25519 but
for the root's and the delegated role's, which are of P-256."""
import importlib.machinery
import importlib.util
import pathlib
import sys
import tempfile

sys.dont_write_bytecode = True
EXAMPLES = pathlib.Path(__file__).resolve().parent.parent / "examples"
FAR = "2036-01-01T00:00:00Z"


def maker():
    """The script examples/make_world, as a module."""
    sys.path.insert(0, str(EXAMPLES))
    loader = importlib.machinery.SourceFileLoader("make_world", str(EXAMPLES / "make_world"))
    module = importlib.util.module_from_spec(importlib.util.spec_from_loader("make_world", loader))
    loader.exec_module(module)
    return module


def write(folder, name, octets):
    at = folder / name
    at.parent.mkdir(parents=True, exist_ok=True)
    at.write_bytes(octets)


def make(folder, targets, delegated):
    """Writes root.json and repository/ into a folder: both kinds of targets are files by their names, without consistent
    snapshots, so that each lies under its own name."""
    make_world = maker()
    content, document, pin = make_world.content, make_world.document, make_world.pin
    with tempfile.TemporaryDirectory() as secret:
        sorts = {"root": "ecdsa", "targets": "ed25519", "snapshot": "ed25519", "timestamp": "ed25519", "apps": "ecdsa"}
        keys = {role: make_world.Key(secret, sort) for role, sort in sorts.items()}
        apps = keys.pop("apps")
        roles = {role: {"keyids": [key.id], "threshold": 1} for role, key in keys.items()}
        declared = {key.id: key.declared for key in keys.values()}

        def signed(key, kind, version, **members):
            return document([], content(kind, version, FAR, **members), key)

        def listed(files):
            return {name: pin(octets) for name, octets in files.items()}

        role = {"name": "apps", "keyids": [apps.id], "threshold": 1, "terminating": False, "paths": ["apps/*"]}
        delegations = {"keys": {apps.id: apps.declared}, "roles": [role]}
        made = {
            "apps.json": signed(apps, "targets", 2, targets=listed(delegated)),
            "targets.json": signed(keys["targets"], "targets", 3, targets=listed(targets), delegations=delegations),
        }
        meta = {"targets.json": pin(made["targets.json"], version=3), "apps.json": pin(made["apps.json"], version=2)}
        made["snapshot.json"] = signed(keys["snapshot"], "snapshot", 4, meta=meta)
        made["timestamp.json"] = signed(keys["timestamp"], "timestamp", 5, meta={"snapshot.json": pin(made["snapshot.json"], version=4)})
        root = signed(keys["root"], "root", 1, consistent_snapshot=False, keys=declared, roles=roles)
    folder = pathlib.Path(folder)
    write(folder, "root.json", root)
    for name, octets in made.items():
        write(folder / "repository", name, octets)
    for name, octets in {**targets, **delegated}.items():
        write(folder / "repository" / "targets", name, octets)
