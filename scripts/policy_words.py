"""Policies that `ratmanganese verify` is told by words: what a policy file (docs/FORMATS.md) has in their place.

Nobody is trusted by default. A rule without a key names an issuer, and by an identity or a claim who signed; whatever else a
policy may leave out, a file says.
"""
import base64
import binascii
import os
import pathlib
import re

from keeping import INPUT, USAGE, Ended, read_file

# The words, and those among them that are for a signer with a certificate.
KEYLESS = ("--identity", "--identity-like", "--issuer", "--claim", "--github", "--workflow", "--tag-like")
WORDS = ("--key", *KEYLESS, "--predicate")
# What --github fills in by itself.
FILLED = ("--identity", "--identity-like", "--issuer")
WORKFLOW, TAG = "release.yml", "v*"
ISSUER = "https://token.actions.githubusercontent.com"
MAX_KEY = 65536
PEM = re.compile(rb"\s*-----BEGIN PUBLIC KEY-----\s+([A-Za-z0-9+/=\s]+)-----END PUBLIC KEY-----\s*")
REPOSITORY = re.compile(r"[A-Za-z0-9][A-Za-z0-9-]{0,38}/[A-Za-z0-9._-]{1,100}")
FILE = re.compile(r"[A-Za-z0-9._-]{1,100}\.ya?ml")


def key_of(path):
    """A public key's DER as base64, from a file in PEM."""
    try:
        octets = read_file(pathlib.Path(path), MAX_KEY)
    except OSError as fault:
        raise Ended(INPUT, f"key {path}: {fault.strerror}", "input policy") from None
    found = PEM.fullmatch(octets)
    if not found:
        private = b"PRIVATE KEY-----" in octets
        raise Ended(INPUT, f"key {path}: it is {'a private key, and the public one is wanted' if private else 'no PEM text of one PUBLIC KEY'}", "input policy")
    try:
        return base64.b64encode(base64.b64decode(b"".join(found[1].split()), validate=True)).decode()
    except binascii.Error:
        raise Ended(INPUT, f"key {path}: its text is no base64", "input policy") from None


def pattern_of(pattern):
    """A line for a pattern of an address or of a URI, as the pattern looks like."""
    if "://" in pattern:
        return f"identity uri-like {pattern}"
    if "@" in pattern:
        return f"identity email-like {pattern}"
    raise Ended(USAGE, f"--identity-like={pattern} is like neither an address (with @) nor a URI (with ://); a policy file takes any pattern", "usage")


def claim_of(text):
    name, sign, value = text.partition("=")
    if not sign or not value or not re.fullmatch("[a-z-]+", name):
        raise Ended(USAGE, f"--claim={text} is written --claim=NAME=TEXT; \"Names of claims\" in docs/FORMATS.md has the names", "usage")
    return f"claim {name} {value}"


def github_of(told):
    """The lines on a workflow of a repository at its tags."""
    repository, workflow = told["--github"], told.get("--workflow", WORKFLOW)
    if not REPOSITORY.fullmatch(repository):
        raise Ended(USAGE, f"--github={repository} is no OWNER/REPOSITORY", "usage")
    if not FILE.fullmatch(workflow):
        raise Ended(USAGE, f"--workflow={workflow} is no file's name, as {WORKFLOW}", "usage")
    return [f"identity uri-like https://github.com/{repository}/.github/workflows/{workflow}@refs/tags/{told.get('--tag-like', TAG)}", f"issuer {ISSUER}"]


def keyless_of(told, claims):
    """The lines on a signer with a certificate."""
    lines = github_of(told) if "--github" in told else []
    if "--identity" in told:
        lines.append(f"identity exact {told['--identity']}")
    if "--identity-like" in told:
        lines.append(pattern_of(told["--identity-like"]))
    if "--issuer" in told:
        lines.append(f"issuer {told['--issuer']}")
    lines += map(claim_of, claims)
    if not any(line.startswith("issuer ") for line in lines):
        raise Ended(USAGE, "--issuer=TEXT is missing: which identity provider vouched for the name", "usage")
    if all(line.startswith("issuer ") for line in lines):
        raise Ended(USAGE, "nobody is named: --identity, --identity-like, --claim or --github says who signs; --policy=FILE takes any policy", "usage")
    return ["keyless", *lines]


def policy_of(told, claims):
    """The octets of a policy file by the words: those with a value, and the values of --claim."""
    for word, value in (*told.items(), *(("--claim", claim) for claim in claims)):
        if word in WORDS and "\n" in value:
            raise Ended(USAGE, f"{word} has a line feed, and a line of a policy has none", "usage")
    lines = [f"key {key_of(told['--key'])}"] if "--key" in told else keyless_of(told, claims)
    if "--predicate" in told:
        lines.append(f"predicate {told['--predicate']}")
    return os.fsencode("".join(f"{line}\n" for line in lines))
