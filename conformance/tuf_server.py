"""A repository that is served over HTTP, and a TUF client that is run over it. (No script: conformance/cases runs the cases of
conformance/tuf_cases.py by it.)
"""
import functools
import http.server
import json
import os
import pathlib
import subprocess
import sys
import threading
import urllib.parse

sys.path.insert(0, str(pathlib.Path(__file__).resolve().parent.parent / "suite"))
from documents import Repository

SECONDS = 600
# The status of this program's clients where there is no proved program.
UNBUILT = 70


class CantRun(Exception):
    """The client can't be run at all; the text says why."""


# ---- the server


class Handler(http.server.BaseHTTPRequestHandler):
    """Serves octets by their paths, and notes what is asked for."""

    def __init__(self, *given, owner, **more):
        self.owner = owner
        super().__init__(*given, **more)

    def do_GET(self):
        path = urllib.parse.unquote(self.path.split("?")[0]).lstrip("/")
        self.owner.asked.append(path)
        octets = self.owner.files.get(path)
        self.send_response(404 if octets is None else 200)
        self.send_header("Content-Length", str(len(octets or b"")))
        self.end_headers()
        self.wfile.write(octets or b"")

    def log_message(self, *_words):
        pass


class World:
    """A repository that is served, and a client with a folder of its own. What a call or a folder isn't as it should be is
    noted in `wrong`."""

    def __init__(self, client, folder, name):
        self.client, self.folder, self.wrong = client, pathlib.Path(folder), []
        self.repository = Repository("tuf", name)
        self.files, self.asked = {}, []
        self.server = http.server.ThreadingHTTPServer(("127.0.0.1", 0), functools.partial(Handler, owner=self))
        self.server.handle_error = lambda *_words: None
        threading.Thread(target=self.server.serve_forever, daemon=True).start()
        self.url = f"http://127.0.0.1:{self.server.server_address[1]}"

    def close(self):
        self.server.shutdown()
        self.server.server_close()

    # ---- what the owner does

    def publish(self, **versions):
        """Serves the state of the repository, with these versions."""
        self.repository.versions = {**self.repository.versions, **versions}
        first, files = self.repository.files()
        # (targets behind `targets/`, all else behind `metadata/`; by the paths that their URLs name, which are decoded once)
        self.files = {urllib.parse.unquote(name if name.startswith("targets/") else f"metadata/{name}"): octets for name, octets in files.items()}
        return first

    def next_state(self, **more):
        """Serves the next state: each document under its next number."""
        versions = {name: number + 1 for name, number in self.repository.versions.items()}
        return self.publish(**{**versions, **more})

    def rotate(self, role, count=1):
        """Makes a next root that names other keys for a role."""
        self.repository.last += 1
        number = self.repository.last
        self.repository.rotated[number] = {role: [self.repository.signer(role, 100 * number + turn) for turn in range(count)]}

    # ---- what the client does

    def run(self, *words):
        environment = {**os.environ, "no_proxy": "*", "NO_PROXY": "*"}
        try:
            done = subprocess.run([self.client, "--metadata-url", f"{self.url}/metadata/", "--metadata-dir", self.folder / "metadata", *words],
                                  env=environment, stdin=subprocess.DEVNULL, capture_output=True, timeout=SECONDS)
        except subprocess.TimeoutExpired:
            return None
        self.said = done.stderr.decode(errors="replace").strip().splitlines()[-1:]
        if done.returncode == UNBUILT:
            raise CantRun(" ".join(self.said))
        return done.returncode

    def init(self, root=None):
        """Serves the repository, and has the client begin with its first root."""
        pinned = self.publish()
        at = self.folder / "pinned.json"
        at.write_bytes(root or pinned)
        self.expect("init", self.run("init", at) == 0, True)

    def expect(self, what, had, wanted):
        if had != wanted:
            self.wrong.append(f"{what}: wanted {wanted}, had {had}" + (f" ({ascii(self.said[0])[1:-1][:200]})" if self.said else ""))

    said = []

    def refresh(self, goes_well, what="refresh"):
        status = self.run("refresh")
        self.expect(what, {0: True, 1: False}.get(status, f"status {status}"), goes_well)

    def download(self, path, goes_well, octets=None):
        status = self.run("--target-name", path, "--target-base-url", f"{self.url}/targets/", "--target-dir", self.folder / "targets", "download")
        self.expect(f"download {path}", {0: True, 1: False}.get(status, f"status {status}"), goes_well)
        if goes_well:
            found = [at.read_bytes() for at in sorted((self.folder / "targets").rglob("*")) if at.is_file()]
            self.expect(f"what was downloaded as {path}", octets in found, True)

    def has(self, **versions):
        """The client's folder has these versions; a role of version none isn't there."""
        for role, version in versions.items():
            at = self.folder / "metadata" / f"{role}.json"
            try:
                had = json.loads(at.read_bytes())["signed"]["version"]
            except OSError:
                had = None
            self.expect(f"{role}.json in the folder", had, version)

    def has_asked(self, *paths):
        """What was asked for since the last call of this, in that order, root documents that aren't there left out."""
        self.expect("what was asked for", [path for path in self.asked if path in self.files], list(paths))
        self.asked.clear()
