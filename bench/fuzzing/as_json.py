"""Fuzzes scripts/as_json: the lines of a report, a folder or a refusal, whose names and texts are a stranger's.

An input is a line with the status and the command, and behind it what the program wrote. Always: the status is 0, and one line of ASCII
is one object of JSON that tells the status; or it is 1, nothing is written, and one line says why. The object tells all: the lines that
it stands for are again those that were read, each once.
"""
import json
import re

from guided import changed
from scripts import TOP, Script, process, wants, wants_lines

SCRIPT = TOP / "scripts" / "as_json"
FILES = [SCRIPT]
SCRIPT_RUN = Script(SCRIPT)
HEAD = re.compile(rb"([0-5]) ?(verify|gate|archive|check)?\n")
CHAIN, ANSWERS = ("root", "timestamp", "snapshot", "target"), ("certificate", "sct", "tlog", "policy")
WHOLE = b"""0
accepted
root 3
timestamp 18446744073709551615
snapshot 2
role targets 1
role a b \\x5c\\xc3\\xbc 7
target 6843
artifact sha256 2cf24dba5fb0a30e26e83b2ac5b9e29e1b161e5c1fa7425e73043362938b9824
artifact sha512 00
identity uri https://example.com/a b\\x5c
issuer https://issuer.example/
certificate yes
sct yes
tlog no
policy yes
integrated -5
times 2
time 1700000000
time 0
rule 2
read no
"""
MANAGED = (TOP / "crates" / "program_verify" / "stdout").read_bytes()
TEXTS = [WHOLE, b"0 verify\n" + MANAGED, b"0\n" + re.sub(rb"root 1.*target 2", b"root none", MANAGED, flags=re.DOTALL)]
TEXTS += [b"0 gate\n", b"0 gate\nadmit a b\nadmit \\xc3\\xbc unsigned\n", b"1 gate\nadmit x\ndeny a b unsigned\ndeny c toolong\n"]
TEXTS += [b"1 gate\ndeny Z\\xc3\\xbc 5 23 UnsupportedBundle\ndeny y 5,23 A,B\n", b"1 gate\nrefused tuf 12 Expired\n", b"1\nrefused tuf 12 Expired\n"]
TEXTS += [b"1\nrefused verify 34 Claim\nor 5 Policy\nor 34 Claim\n", b"1 check\nrefused archive 3 FirstRoot\n", b"2\nusage\n", b"2\nusage policy\n"]
TEXTS += [b"3\ninput root\n", b"3 gate\ninput folder count\n", b"3 gate\ninput folder\n", b"4\n", b"5 gate\nadmit x\n"]
WORDS = [b"none", b"yes", b"no", b"\\x5c", b"\\xff", b"\\x0a", b" ", b"\n", b"or 5 X\n", b"rule 1\n", b"read no\n", b"1_0", b"+1", b"-1", b"01", b"unsigned"]


def begin(_folder, _keep):
    return TEXTS


# ---- the lines that an object stands for


def printed(text):
    return "".join(chr(octet) if 32 <= octet < 127 and octet != 92 else f"\\x{octet:02x}" for octet in text.encode())


def of_identity(found):
    return "none" if found is None else f"{found['sort']} {printed(found['name'])}"


def report_lines(it):
    yield "accepted"
    yield from ["root none"] if it["root"] is None else [f"{name} {it[name]}" for name in CHAIN]
    yield from (f"role {printed(role['name'])} {role['version']}" for role in it["roles"])
    yield from (f"artifact {name} {digest}" for name, digest in it["artifact"].items())
    yield f"identity {of_identity(it['identity'])}"
    yield f"issuer {'none' if it['issuer'] is None else printed(it['issuer'])}"
    yield from (f"{name} {'yes' if it[name] else 'no'}" for name in ANSWERS)
    yield f"integrated {'none' if it['integrated'] is None else it['integrated']}"
    yield f"times {len(it['times'])}"
    yield from (f"time {seconds}" for seconds in it["times"])
    yield from [f"rule {it['rule']}"] if "rule" in it else []
    yield from ["read no"] if "read" in it else []


def artifact_line(it):
    if it["verdict"] == "admit" or it["reason"] != "refused":
        return " ".join([it["verdict"], printed(it["name"]), *([it["reason"]] if "reason" in it else [])])
    refusals = [(it["number"], it["refusal"]), *((other["number"], other["name"]) for other in it.get("or", []))]
    return f"deny {printed(it['name'])} {','.join(str(number) for number, _ in refusals)} {','.join(name for _, name in refusals)}"


def lines_of(it):
    answer = it["answer"]
    if answer == "accepted":
        return list(report_lines(it))
    if answer == "gated":
        return [artifact_line(one) for one in it["artifacts"]]
    if answer == "refused":
        return [f"refused {it['part']} {it['number']} {it['name']}", *(f"or {other['number']} {other['name']}" for other in it.get("or", []))]
    return [" ".join([answer, *(it[name] for name in ("file", "why") if it.get(name) is not None)])]


# ---- runs


def read_input(octets):
    head = HEAD.match(octets)
    return ([word.decode() for word in head.groups() if word], octets[head.end() :]) if head else (["0"], octets)


def judge(octets, ended):
    words, text = read_input(octets)
    wants_lines(ended, 1)
    wants(ended.status in (0, 1), "status: it is 0 or 1", ended)
    if ended.status == 1:
        wants(not ended.out and ended.err, "refused: nothing is written, and a line says why", ended)
        return set()
    wants(not ended.err and ended.out.isascii() and ended.out.endswith(b"\n") and ended.out.count(b"\n") == 1, "output: one line", ended)
    found = json.loads(ended.out)
    wants(found["status"] == int(words[0]), "status: it isn't told", ended)
    if words[0] not in "45":
        told = sorted(lines_of(found))
        read = sorted(text.decode("ascii").split("\n")[:-1])
        wants(told == read, f"lost: {sorted(set(told) ^ set(read))}", ended)
    return {found["answer"], (found["answer"], len(found.get("or", [])) > 1), found.get("why")}


def run(octets):
    words, text = read_input(octets)
    return judge(octets, SCRIPT_RUN.run(words, text))


def whole(octets):
    words, text = read_input(octets)
    judge(octets, process([SCRIPT, *words], text))


def change(octets, other, source):
    lines, others = octets.split(b"\n"), other.split(b"\n")
    at = source.randrange(len(lines))
    chosen = source.randrange(5)
    if chosen == 0:
        lines.insert(at, source.choice(others))
    elif chosen == 1 and len(lines) > 1:
        del lines[at]
    elif chosen == 2:
        words = lines[at].split(b" ")
        words[source.randrange(len(words))] = source.choice([*WORDS, *source.choice(others).split(b" ")])
        lines[at] = b" ".join(words)
    else:
        lines[at] = changed(lines[at], source.choice(others), WORDS, source)
    return b"\n".join(lines)
