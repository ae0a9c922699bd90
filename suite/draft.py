"""A world while it is being made. (No script: suite/make and conformance/cases make their worlds by it.)

A draft begins as a world in order, of some shape: who signs, what, and what the bundle has beside the signature. A case
(suite/case.py) then changes one thing of it, and `files` makes what is left. What is changed is signed anew wherever a
signature stands over it, so that the world is to be refused for that one thing.
"""
import functools
import hashlib
import json

from documents import Repository
from instance import DETAILS, SIGNED, Authority, CertificateLog, Log, Stamper, armored, leaf, path_to, root_hash, trust_file
from keys import Key, drawn, drawn_number, spelled

IN_TOTO = "application/vnd.in-toto+json"
PREDICATE = "https://example.com/released/v1"
NAMES = {"email": "someone@example.com", "uri": "https://github.com/example/project/.github/workflows/release.yml@refs/tags/v1.2.3"}
ISSUERS = {"email": "https://issuer.example.com", "uri": "https://token.actions.githubusercontent.com"}
# What the certificate of a workflow claims, by the numbers of Fulcio's extensions.
CLAIMS = {2: "push", 4: "Release", 5: "example/project", 6: "refs/tags/v1.2.3", 9: NAMES["uri"], 11: "github-hosted",
          12: "https://github.com/example/project", 14: "refs/tags/v1.2.3", 20: "push"}
# The kinds of entries whose promise tells a time.
PROMISED = ("hashedrekord-0.0.1", "dsse-0.0.1", "intoto-0.0.2")
MEDIA_TYPES = {"0.1": "application/vnd.dev.sigstore.bundle+json;version=0.1", "0.2": "application/vnd.dev.sigstore.bundle+json;version=0.2",
               "0.3": "application/vnd.dev.sigstore.bundle.v0.3+json"}
ALGORITHMS = {"sha256": "SHA2_256", "sha384": "SHA2_384", "sha512": "SHA2_512"}


class Instance:
    """The parties of a number: two of each sort, of which the first ones sign, and a third one that no trust file lists."""

    def __init__(self, number):
        self.authorities = [Authority(number, which) for which in ("one", "two", "foreign")]
        self.certificate_logs = [CertificateLog(number, which) for which in ("one", "two", "foreign")]
        self.logs = [Log(number, which, name=f"log{which}.example.com") for which in ("one", "two", "foreign")]
        self.stampers = [Stamper(number, which) for which in ("one", "two", "foreign")]


@functools.lru_cache(maxsize=4)
def instance_of(number):
    return Instance(number)


class Entry:
    """What is to be said of a log entry; each word has what is in order for a start."""

    def __init__(self, kind, log):
        self.kind, self.log = kind, log
        self.seconds = int(SIGNED.timestamp()) + 5
        self.is_promised = kind in PROMISED
        self.tells_time = kind in PROMISED
        self.promised_by = None
        # Of another signature than the bundle's: the signature, the holder of the key, the octets.
        self.signature = self.holder = self.content = None
        self.change_body = self.change_octets = self.change_entry = self.change_proof = lambda it: it
        self.checkpoint = {}


class Draft:
    def __init__(self, number, name, shape):
        self.number, self.name, self.shape = number, name, shape
        self.at = instance_of(number)
        self.labels = (number, name)
        self.artifact = f"What {name} of {number} is about.\n".encode() + drawn(drawn_number(3000, "size", *self.labels), "artifact", *self.labels).hex().encode()
        # What lies under the artifact's name: other octets, none (nothing is there), or a folder.
        self.handed = self.artifact
        self.is_folder = False
        # (keys of RSA take a while to be drawn: all worlds of a number have one)
        labels = (number,) if shape["signer"] == "rsa" else self.labels
        self.key = Key("p256" if self.is_keyless else shape["signer"], "signer", *labels)
        self.digest = self.key.digest or "sha256"
        # Further words of the certificate, and what its octets become.
        self.certificate_words = {}
        self.issuing, self.promising = self.at.authorities[0], [self.at.certificate_logs[0]]
        self.change_certificate = lambda it: it
        self.entries = [Entry(shape["entry"], self.at.logs[0])] if shape["entry"] else []
        # Each token by the words of `Stamper.token`, with the authority as `of`, and its octets as they become.
        self.tokens = [{"of": self.at.stampers[0]}] if shape["token"] else []
        self.logs = [it.declared() for it in self.at.logs[:2]]
        self.certificate_logs = [it.declared() for it in self.at.certificate_logs[:2]]
        self.authorities = [it.declared() for it in self.at.authorities[:2]]
        self.stampers = [it.declared() for it in self.at.stampers[:2]]
        self.trust_changes, self.trust_octets = [], []
        self.subjects = [{"name": "artifact", "digest": {"sha256": hashlib.sha256(self.artifact).hexdigest()}}]
        self.payload_type, self.predicate_type = IN_TOTO, PREDICATE
        self.change_payload = lambda it: it
        self.sign = self.key.sign
        # (clients take the digest of 256 bits for a file under any key)
        if shape["signer"] == "p384" and shape["content"] == "message":
            self.digest, self.sign = "sha256", functools.partial(self.key.sign, digest="sha256")
        # What the bundle's own signature becomes behind the logging and the stamping, and the bundle.
        self.change_signature = lambda it: it
        self.bundle_changes, self.bundle_octets = [], []
        self.repository = self.repository_of()
        self.before = None
        self.change_root = lambda it: it
        self.policy = self.usual_policy()
        self.more = []
        self.rules_before = []

    @property
    def is_keyless(self):
        return self.shape["signer"] in NAMES

    def repository_of(self, **words):
        """The repository of the shape; its keys are the number's and the shape's, so that an earlier state has the same."""
        told = dict(self.shape["tuf"])
        told.pop("delegated", None)
        rotated = told.pop("rotated", ())
        made = Repository(self.number, told.get("label", 0), **{**{name: it for name, it in told.items() if name != "label"}, **words})
        for number in range(2, made.last + 1):
            role = rotated[(number - 2) % len(rotated)] if rotated else None
            if role:
                count = len(made.signers[role])
                made.rotated[number] = {role: [made.signer(role, 10 * number + turn) for turn in range(count)]}
        return made

    # ---- who signs

    def usual_policy(self):
        sort = self.shape["signer"]
        if self.is_keyless:
            lines = ["keyless", f"identity {sort} {NAMES[sort]}", f"issuer {ISSUERS[sort]}"]
        else:
            lines = [f"key {spelled(self.key.spki)}"]
        return lines + ([] if self.shape["entry"] else ["skip tlog"])

    def certificate(self):
        sort = self.shape["signer"]
        words = {"sort": sort, "name": NAMES[sort], "issuer": ISSUERS[sort], "claims": CLAIMS if sort == "uri" else None, **self.certificate_words}
        return self.change_certificate(self.issuing.issue(self.key, self.promising, *self.labels, **words))

    # ---- what is signed

    def statement(self):
        told = {"_type": "https://in-toto.io/Statement/v1", "subject": self.subjects, "predicateType": self.predicate_type, "predicate": {"by": "hand"}}
        return self.change_payload(json.dumps(told).encode())

    def encoding(self, payload):
        """What the signature of an envelope is over (DSSE, protocol.md)."""
        return f"DSSEv1 {len(self.payload_type)} {self.payload_type} {len(payload)} ".encode() + payload

    # ---- entries

    def body(self, entry, certificate, payload, signature):
        key = entry.holder or self.key
        signature = entry.signature or signature
        message = entry.content or (self.encoding(payload) if payload else self.artifact)
        holder = armored("CERTIFICATE", certificate) if certificate and not entry.holder else key.pem.encode()
        digest = hashlib.sha256(message)
        kind, version = entry.kind.split("-")
        if entry.kind == "hashedrekord-0.0.1":
            told = {"algorithm": "sha256", "value": digest.hexdigest()}
            spec = {"data": {"hash": told}, "signature": {"content": spelled(signature), "publicKey": {"content": spelled(holder)}}}
        elif entry.kind == "hashedrekord-0.0.2":
            name, octets = ("x509Certificate", certificate) if certificate and not entry.holder else ("publicKey", key.spki)
            verifier = {"keyDetails": DETAILS["p256"], name: {"rawBytes": spelled(octets)}}
            told = {"algorithm": "SHA2_256", "digest": spelled(digest.digest())}
            spec = {"hashedRekordV002": {"data": told, "signature": {"content": spelled(signature), "verifier": verifier}}}
        else:
            payload = payload or message
            of_payload = {"algorithm": "sha256", "value": hashlib.sha256(payload).hexdigest()}
            envelope = {"payload": spelled(payload), "payloadType": self.payload_type, "signatures": [{"sig": spelled(signature)}]}
            whole = {"algorithm": "sha256", "value": hashlib.sha256(json.dumps(envelope, separators=(",", ":")).encode()).hexdigest()}
            if entry.kind == "dsse-0.0.1":
                spec = {"envelopeHash": whole, "payloadHash": of_payload, "signatures": [{"signature": spelled(signature), "verifier": spelled(holder)}]}
            else:
                signatures = [{"sig": spelled(spelled(signature).encode()), "publicKey": spelled(holder)}]
                spec = {"content": {"envelope": {"payloadType": self.payload_type, "signatures": signatures}, "hash": whole, "payloadHash": of_payload}}
        told = entry.change_body({"apiVersion": version, "kind": kind, "spec": spec})
        return entry.change_octets(json.dumps(told, sort_keys=True, separators=(",", ":")).encode())

    def logged(self, entry, number, body):
        """The entry in a tree of a drawn size, at a drawn place."""
        log = entry.log
        size = 2 + drawn_number(60, "tree", number, *self.labels)
        place = drawn_number(size, "place", number, *self.labels)
        hashes = [leaf(drawn(40, "leaf", number, it, *self.labels)) for it in range(size)]
        hashes[place] = leaf(body)
        root = root_hash(hashes)
        checkpoint = log.checkpoint(size, root, **{"origin": log.origin(entry.kind in PROMISED), **entry.checkpoint})
        proof = {"logIndex": str(place), "rootHash": spelled(root), "treeSize": str(size),
                 "hashes": list(map(spelled, path_to(place, hashes))), "checkpoint": {"envelope": checkpoint}}
        kind, version = entry.kind.split("-")
        index = 1_000_000 + place if entry.kind in PROMISED else place
        made = {"logIndex": str(index), "logId": {"keyId": spelled(log.id)}, "kindVersion": {"kind": kind, "version": version}}
        if entry.tells_time:
            made["integratedTime"] = str(entry.seconds)
        if entry.is_promised:
            promised = log.promise(body, entry.seconds if entry.tells_time else 0, index, entry.promised_by)
            made["inclusionPromise"] = {"signedEntryTimestamp": spelled(promised)}
        made |= {"inclusionProof": entry.change_proof(proof), "canonicalizedBody": spelled(body)}
        return entry.change_entry(made)

    # ---- the bundle

    def material(self, certificate):
        if not certificate:
            return {"publicKey": {"hint": spelled(hashlib.sha256(self.key.spki).digest()[:4])}}
        if self.shape["version"] == "0.3":
            return {"certificate": {"rawBytes": spelled(certificate)}}
        chain = [certificate, self.issuing.intermediate] if self.shape["version"] == "0.1" else [certificate]
        return {"x509CertificateChain": {"certificates": [{"rawBytes": spelled(it)} for it in chain]}}

    def bundle(self):
        certificate = self.certificate() if self.is_keyless else None
        payload = self.statement() if self.shape["content"] == "envelope" else None
        message = self.encoding(payload) if payload else self.artifact
        signature = self.sign(message)
        shown = self.change_signature(signature)
        material = self.material(certificate)
        entries = [self.logged(it, turn, self.body(it, certificate, payload, signature)) for turn, it in enumerate(self.entries)]
        if entries:
            material["tlogEntries"] = entries
        tokens = []
        for token in self.tokens:
            words = {name: it for name, it in token.items() if name not in ("of", "over", "become")}
            tokens.append(token.get("become", lambda it: it)(token["of"].token(token.get("over") or signature, **words)))
        if tokens:
            material["timestampVerificationData"] = {"rfc3161Timestamps": [{"signedTimestamp": spelled(it)} for it in tokens]}
        if payload:
            content = {"dsseEnvelope": {"payload": spelled(payload), "payloadType": self.payload_type, "signatures": [{"sig": spelled(shown)}]}}
        else:
            digest = {"algorithm": ALGORITHMS[self.digest], "digest": spelled(hashlib.new(self.digest, self.artifact).digest())}
            content = {"messageSignature": {"messageDigest": digest, "signature": spelled(shown)}}
        made = {"mediaType": MEDIA_TYPES[self.shape["version"]], "verificationMaterial": material, **content}
        for change in self.bundle_changes:
            made = change(made)
        octets = (json.dumps(made, indent=1) + "\n").encode()
        for change in self.bundle_octets:
            octets = change(octets)
        return octets

    def trust(self):
        made = trust_file(self.logs, self.certificate_logs, self.authorities, self.stampers)
        for change in self.trust_changes:
            made = change(made)
        octets = (json.dumps(made, indent=1) + "\n").encode()
        for change in self.trust_octets:
            octets = change(octets)
        return octets

    def delegate(self, repository, trust):
        """Lists the trust file where the shape has it: in the targets document, or in a role's."""
        if self.shape["tuf"].get("delegated"):
            repository.delegate(self.shape["tuf"]["delegated"], paths=["*.json"], terminating=True, targets={"trusted_root.json": trust})
        else:
            repository.targets["trusted_root.json"] = trust

    def files(self):
        trust = self.trust()
        made = {"bundle.json": self.bundle(), "policy": "".join(f"{line}\n" for line in [*self.rules_before, *self.policy, *self.more]).encode()}
        for folder, repository in (("before", self.before), ("repository", self.repository)):
            if repository:
                if not repository.targets and not repository.delegated:
                    self.delegate(repository, trust)
                first, files = repository.files()
                made |= {f"{folder}/{name}": octets for name, octets in files.items()}
                made["root.json"] = self.change_root(first)
        if self.is_folder:
            made["artifact/of a folder"] = self.artifact
        elif self.handed is not None:
            made["artifact"] = self.handed
        if not self.is_keyless:
            made["key.pem"] = self.key.pem.encode()
        return made
