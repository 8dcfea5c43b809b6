#!/usr/bin/python3
"""Drives the program of crates/site_main as a host does: tests/programs/site_lines.py PROGRAM. Registrations and sign-ins of a
device that `cryptography` plays, wrong signatures, what a browser made (python/tests/recorded.json), where the random bytes
come from, restarts, a kill, wrong lines, and the clean end. The last line is 'N passed, M failed'."""
import json
import os
import random
import sqlite3
import subprocess
import sys
import tempfile
import time
from pathlib import Path

top = Path(__file__).resolve().parents[2]
subprocess.run([top / "python" / "prepare"], check=True)
sys.path[:0] = [str(top / "tests" / "shared"), str(top / "python"), str(top / "python" / "tests")]
from asked_by_lines import Checks, Program  # noqa: E402
from device import AT, BE, BS, ED, UP, UV, Device, changed  # noqa: E402
from garvoeng import EDDSA, ES256, RS256  # noqa: E402
from garvoeng.forms import from_text, to_text  # noqa: E402
from garvoeng.signatures import is_valid  # noqa: E402

RP_ID, ORIGIN, USER = "example.com", "https://example.com", b"account 7"
PARTY = ["--rp-id", RP_ID, "--origin", ORIGIN]


def in_place_of_random(path):
    """The words before a program that make it read this file as /dev/urandom."""
    if path is None:
        return []
    user = [] if os.geteuid() == 0 else ["--map-root-user"]
    return ["unshare", *user, "--mount", "sh", "-c", 'mount --bind "$0" /dev/urandom && exec "$@"', str(path)]


# What is answered with what tells copies of the file that lack it.
KNOWING = {"accepted", "retired", "deleted", "retired_all", "erased", "abandoned", "status"}


class Host(Program):
    """A host: it runs the program, in the open profile if not said, and speaks with it by lines."""

    def __init__(self, program, file, *words, random_bytes=None, errors=None):
        self.errors = tempfile.TemporaryFile() if errors is None else errors
        profile = [] if any(str(word).startswith("--profile") for word in words) else ["--profile", "open"]
        super().__init__([*in_place_of_random(random_bytes), program, *profile, str(file), *words], stderr=self.errors)
        self.known = 0

    def ask(self, act, **members):
        """An answer; what it tells of copies is kept."""
        answer = super().ask(act, **members)
        assert ("known" in answer) == bool(answer.keys() & KNOWING), answer
        assert answer.get("known", self.known) >= self.known, answer
        self.known = answer.pop("known", self.known)
        return answer

    def finish(self, act, session, response, is_right=is_valid):
        """The verdict on a response: the host verifies what it is told to, and asks again."""
        answer = self.ask(act, session=session, response=response)
        if "verify" not in answer:
            return answer
        asked = answer["verify"]
        key, message, signature = (asked["x"], asked["y"]), asked["message"], asked["signature"]
        if not is_right(asked["algorithm"], *map(from_text, key, "xy"), from_text(message, ""), from_text(signature, "")):
            return self.ask(act, session=session, response=response, verified=False)
        return self.ask(act, session=session, response=response, verified=asked)

    def end(self):
        """The status and standard error, after the end of the input."""
        status, rest = self.ended()
        self.errors.seek(0)
        return status, rest, self.errors.read().decode()


class Tests(Checks):
    def __init__(self, program):
        super().__init__(program)
        self.folder = tempfile.TemporaryDirectory()

    def file(self, name):
        return Path(self.folder.name) / name


def refused(name, number, text):
    return {"refused": {"name": name, "number": number, "text": text}}


def visit(tests, host, device, **how):
    """A registration and two sign-ins, and what is wrong with them when they come again or changed."""
    what = f"{device.algorithm} {how}"
    begun = host.ask("begin_registration", user=to_text(USER), user_name="name", **how.get("begin", {}))
    made = device.register(begun["options"], **how.get("register", {}))
    accepted = host.finish("finish_registration", begun["session"], made)
    row = {"credential": to_text(device.id), "user": to_text(USER), "algorithm": device.algorithm, "x": to_text(device.x),
           "y": to_text(device.y), "sign_count": 0, "eligible": False, "retired": False,
           "aaguid": to_text(device.aaguid), "format": "packed" if how.get("register", {}).get("packed") else "none",
           "user_verified": True, "backed_up": False, "flags": UP | UV | AT, "extensions": None}
    tests.check(f"registered {what}", accepted, {"accepted": row})
    again = host.finish("finish_registration", begun["session"], made)
    tests.check(f"registered again {what}", again, refused("G1", 1, "the session is not open for registration"))
    for user in (None, USER):
        begun = host.ask("begin_sign_in", user=to_text(USER), allow=[to_text(device.id)])
        answered = device.sign_in(begun["options"], user=user)
        wrong = changed(answered, "signature", lambda data: data[:-1] + bytes([data[-1] ^ 1]))
        invalid = refused("W14", 14, "the signature is not valid")
        tests.check(f"a wrong signature {what}", host.finish("finish_sign_in", begun["session"], wrong), invalid)
        tests.check(f"one that the host calls wrong {what}", host.finish("finish_sign_in", begun["session"], answered,
                                                                         is_right=lambda *_: False), invalid)
        for misled in misleads(host.ask("finish_sign_in", session=begun["session"], response=answered)["verify"]):
            tests.check(f"another signature {what}",
                        host.ask("finish_sign_in", session=begun["session"], response=answered, verified=misled),
                        invalid)
        tests.check(f"signed in {what}", host.finish("finish_sign_in", begun["session"], answered),
                    {"accepted": {"credential": to_text(device.id), "user": to_text(USER), "backed_up": False,
                                  "user_verified": True, "sign_count": device.count, "flags": UP | UV, "extensions": None}})
        tests.check(f"signed in again {what}", host.finish("finish_sign_in", begun["session"], answered),
                    refused("W1", 1, "the session is not open for sign-in"))


def told(tests):
    """What is told of an acceptance beside the row: the flags by name, the counter, the extensions, the format."""
    host = Host(tests.program, tests.file("told.db"), *PARTY)
    device = Device(EDDSA)
    begun = host.ask("begin_registration", user=to_text(USER), user_name="name")
    made = device.register(begun["options"], flags=UP | BE | BS | AT | ED, packed=True, outputs=b"\xa1\x61a\x01")
    found = host.finish("finish_registration", begun["session"], made)["accepted"]
    names = ("aaguid", "format", "user_verified", "backed_up", "flags", "extensions", "eligible")
    tests.check("of a registration", [found[name] for name in names],
                [to_text(device.aaguid), "packed", False, True, UP | BE | BS | AT | ED, to_text(b"\xa1\x61a\x01"), True])
    for flags, outputs, wanted in ((UP | UV | BE, b"", [True, False, 1, None]),
                                   (UP | BE | BS | ED, b"\xa1\x61b\xf5", [False, True, 2, to_text(b"\xa1\x61b\xf5")])):
        begun = host.ask("begin_sign_in", user=to_text(USER))
        found = host.finish("finish_sign_in", begun["session"], device.sign_in(begun["options"], flags=flags, outputs=outputs))
        found = found["accepted"]
        tests.check(f"of a sign-in with {flags:#x}", [*(found[name] for name in ("user_verified", "backed_up", "sign_count",
                                                                                 "extensions")), found["flags"]], [*wanted, flags])
    # Self attestation whose signature the host calls wrong.
    begun = host.ask("begin_registration", user=to_text(USER), user_name="name")
    made = Device(EDDSA, credential=b"another").register(begun["options"], packed=True)
    found = host.finish("finish_registration", begun["session"], made, is_right=lambda *_: False)
    tests.check("a self attestation that is called wrong", found["refused"]["name"], "G13")
    tests.check("which is registered afterwards", "accepted" in host.finish("finish_registration", begun["session"], made))
    # A response that names another credential than it attests.
    begun = host.ask("begin_registration", user=to_text(USER), user_name="name")
    made = Device(ES256, credential=b"a third").register(begun["options"])
    for other in (b"a thirc", b"a third ", b"a thir", device.id):
        found = host.finish("finish_registration", begun["session"], {**made, "id": to_text(other), "rawId": to_text(other)})
        tests.check(f"the id {other!r}", found, refused("G19", 19, "the response's id is not the attested credential's"))
    tests.check("the refusals are counted", host.ask("status")["status"]["registrations_refused"], {"G13": 1, "G19": 4})
    absent = Device(ES256, credential=b"a third").register(begun["options"], flags=UV | AT)
    found = host.finish("finish_registration", begun["session"], {**absent, "id": to_text(b"other"), "rawId": to_text(b"other")})
    tests.check("another id and no presence", found["refused"]["name"], "G9")
    tests.check("with its own id", "accepted" in host.finish("finish_registration", begun["session"], made))
    # Where an earlier step refuses, that step is told.
    begun = host.ask("begin_sign_in", user=to_text(b"somebody else"))
    found = host.ask("finish_sign_in", session=begun["session"], response=device.sign_in(begun["options"]), verified=False)
    tests.check("an earlier step", found["refused"]["name"], "W4")
    for wrong in (True, 0, 1, "no", []):
        found = host.ask("finish_sign_in", session=begun["session"], response=made, verified=wrong)
        tests.check(f"verified {wrong}", "error" in found)
    tests.check("the end", host.end(), (0, b"", ""))


def misleads(asked):
    """What a host might hand in by mistake: another key, message or signature than the one that was to be verified."""
    for name in ("x", "message", "signature"):
        data = from_text(asked[name], name)
        yield {**asked, name: to_text(bytes([data[0] ^ 2]) + data[1:])}
    yield {**asked, "message": to_text(from_text(asked["message"], "") + b"\0")}


def options(tests, host):
    """The options as the page takes them, member for member."""
    begun = host.ask("begin_registration", user=to_text(USER), user_name='n"\u00e4', display_name="d", exclude=["AQ"],
                     user_verification=True, resident=False, algorithms=[-8])
    challenge = begun["options"].pop("challenge")
    tests.check("challenge", from_text(challenge, "")[:8], begun["number"].to_bytes(8, "big"))
    tests.check("creation options", begun["options"], {
        "rp": {"id": RP_ID, "name": "A site"}, "user": {"id": to_text(USER), "name": 'n"\u00e4', "displayName": "d"},
        "pubKeyCredParams": [{"type": "public-key", "alg": -8}], "excludeCredentials": [{"type": "public-key", "id": "AQ"}],
        "authenticatorSelection": {"residentKey": "discouraged", "requireResidentKey": False, "userVerification": "required"},
        "attestation": "none"})
    tests.check("abandoned", host.ask("abandon", session=begun["session"]), {"abandoned": True})
    tests.check("abandoned again", host.ask("abandon", session=begun["session"]), {"abandoned": False})
    begun = host.ask("begin_sign_in")
    del begun["options"]["challenge"]
    tests.check("request options", begun["options"],
                {"rpId": RP_ID, "allowCredentials": [], "userVerification": "preferred"})
    host.ask("abandon", session=begun["session"])


def words(tests):
    """What the program prints of itself."""
    version = (top / "VERSION").read_text().strip()
    for word, wanted in (("--version", f"passkey-site {version}\n"), ("-V", f"passkey-site {version}\n"), ("--help", "A relying party over lines")):
        done = subprocess.run([tests.program, word], capture_output=True, check=False, stdin=subprocess.DEVNULL, text=True)
        tests.check(word, (done.returncode, done.stdout[:len(wanted)], done.stderr), (0, wanted, ""))


def visits(tests):
    host = Host(tests.program, tests.file("visits.db"), *PARTY, "--rp-name", "A site", "--log")
    began = int(time.time())
    options(tests, host)
    devices = [Device(algorithm, credential=b"%d" % number) for number, algorithm in enumerate((ES256, EDDSA, RS256))]
    for device in devices:
        visit(tests, host, device)
    packed = Device(ES256, credential=b"packed")
    visit(tests, host, packed, register={"packed": True})
    rows = host.ask("rows", user=to_text(USER))["rows"]
    tests.check("rows", [(row["credential"], row["sign_count"]) for row in rows],
                [(to_text(device.id), 2) for device in (*devices, packed)])
    tests.check("rows of nobody", host.ask("rows", user="AA"), {"rows": []})
    tests.check("retired", host.ask("retire", credential=to_text(packed.id)), {"retired": True})
    tests.check("retired again", host.ask("retire", credential=to_text(packed.id)), {"retired": False})
    begun = host.ask("begin_sign_in", user=to_text(USER))
    tests.check("a retired credential", host.finish("finish_sign_in", begun["session"], packed.sign_in(begun["options"])),
                refused("W3", 3, "no credential with this id is registered"))
    status, rest, errors = host.end()
    tests.check("the end", (status, rest), (0, b""))
    last = errors.splitlines()[-1].split(" ", 1)
    tests.check("the log", last[1], f"line {host.number} session {begun['number']} sign-in refused W3 credential "
                                    f"{to_text(packed.id)}: no credential with this id is registered")
    tests.check("its second", began <= int(last[0]) <= time.time())
    tests.check("wrong signatures are in the log", sum(" sign-in refused W14 " in line for line in errors.splitlines()) >= 8)
    tests.check("acceptances are not", "accepted" in errors, False)
    secrets = [to_text(USER), "account 7", '"']
    tests.check("no secrets in the log", [one for one in secrets if one in errors], [])


def logs(tests):
    """What `--log` tells, by its value, and that no line of it is long."""
    long = Device(EDDSA, credential=b"\xff" * 1023)
    for words, kinds in (([], set()), (["--log"], {"W1", "G19", "failed begin"}), (["--log", "refusals"], {"W1", "G19", "failed begin"}),
                         (["--log=all"], {"W1", "G19", "failed begin", "accepted", "error"}),
                         (["--log", "all"], {"W1", "G19", "failed begin", "accepted", "error"})):
        host = Host(tests.program, *words, tests.file(f"log{len(kinds)}{len(words)}.db"), *PARTY)
        begun = host.ask("begin_registration", user=to_text(USER), user_name="name")
        host.ask("begin_sign_in", user=to_text(bytes(65)))
        made = long.register(begun["options"])
        host.finish("finish_registration", begun["session"], {**made, "id": "AA", "rawId": "AA"})
        host.finish("finish_registration", begun["session"], made)
        begun = host.ask("begin_sign_in")
        answered = long.sign_in(begun["options"], user=USER)
        host.finish("finish_sign_in", begun["session"], answered)
        host.finish("finish_sign_in", begun["session"], answered)
        host.raw(b'{"id":77,"act":"nothing"}')
        status, rest, errors = host.end()
        lines = errors.splitlines()
        found = {kind for kind, text in (("W1", f" session {begun['number']} sign-in refused W1 credential "),
                                         ("G19", " registration refused G19 credential AA: "), ("failed begin", " error: what is asked is not within its limits"), ("accepted", " accepted credential "),
                                         ("error", " line 77 session - error: there is no such act")) if text in errors}
        tests.check(f"the log with {words}", (status, found), (0, kinds))
        tests.check(f"acceptances with {words}", sum(" accepted " in line for line in lines), 2 * ("accepted" in kinds))
        tests.check(f"no line is long with {words}", max(map(len, lines), default=0) <= 1000)
        tests.check(f"a cut id with {words}", all("_" * 512 + ".." in line for line in lines if " credential " in line and " G19 " not in line))
    status = Host(tests.program, tests.file("log.db"), *PARTY, "--log=some").end()[0]
    tests.check("another value", status, 2)
    host = Host(tests.program, tests.file("log.db"), *PARTY, "--log")
    large = {"id": "A" * 20_000, "rawId": "A" * 20_000, "type": "public-key",
             "response": {"clientDataJSON": "AA", "authenticatorData": "AA", "signature": "AA"}}
    tests.check("a large id is refused", host.ask("finish_sign_in", session="AA", response=large)["refused"]["name"], "W1")
    tests.check("and its line is short", len(host.end()[2]) <= 1000)


def numbers(tests):
    """A line that can't be read is told with its number, where that stands in its first 65,537 bytes."""
    host = Host(tests.program, tests.file("numbers.db"), *PARTY)
    deep = b"[" * 200 + b"]" * 200
    for what, line, wanted in (
            ("too deep", b'{"id":5,"act":"rows","user":' + deep + b"}", 5),
            ("a lone surrogate", b'{"act":"rows","user":"\\ud800","id":6}', 6),
            ("a number too large", b'{"id":7,"act":"rows","user":1e999}', 7),
            ("too long", b'{"id":8,"act":"rows","user":"' + b"A" * 70_000 + b'"}', 8),
            ("too long, at its end", b'{"act":"rows","user":"' + b"A" * 70_000 + b'","id":9}', None),
            ("no UTF-8", b'{"id":10,"act":"rows","user":"\xff"}', 10),
            ("an id inside", b'{"act":"rows","user":{"id":11},"x":1e999}', None),
            ("a doubled id", b'{"id":11,"act":"rows","user":1e999,"id":12}', 12),
            ("a NUL", b'{"id":13,"act":"rows"\0}', 13), ("a cut line", b'{"id":14,"act":"ro', 14),
            ("an id that is cut", b'{"id":14', None), ("an id as a text", b'{"id":"5","x":1e999}', None),
            ("a negative id", b'{"id":-5,"x":1e999}', None), ("a fraction", b'{"id":5.5,"x":1e999}', None),
            ("2^64", b'{"id":18446744073709551616,"x":1e999}', None),
            ("2^64 - 1", b'{"id":18446744073709551615,"x":1e999}', 2**64 - 1), ("a list", b'["id",5]', None)):
        answer = host.raw(line)
        tests.check(f"the number of a line: {what}", ("error" in answer, answer["id"]), (True, wanted))
    rng = random.Random(11)
    for number in range(500):
        user = {"".join(rng.choice('id":,{}[]\\ \u00e4') for _ in range(rng.randrange(8))): rng.choice((1, "id", [{"id": 5}], {"id": 6}))
                for _ in range(rng.randrange(4))}
        value = {"act": "rows", "user": user, "id": number}
        line = json.dumps(dict(rng.sample(list(value.items()), 3)), ensure_ascii=rng.random() < 0.5)
        end, error = rng.choice(((b',"x":1e999}', "the line is no JSON object"), (b',"x":' + deep + b"}", "the line nests too deep")))
        answer = host.raw(line.encode()[:-1] + end)
        if answer != {"error": error, "id": number}:
            tests.check(f"a line of {line}", answer, number)
            break
    else:
        tests.check("500 lines that can't be read", True)
    # The object of the line is the first of 32 levels; brackets in texts are none.
    for what, value, wanted in (("31 lists", "[" * 31 + "]" * 31, "user is not in its form"), ("32 lists", "[" * 32 + "]" * 32, "the line nests too deep"),
                                ("31 objects", '{"":' * 31 + "0" + "}" * 31, "user is not in its form"),
                                ("32 objects", '{"":' * 32 + "0" + "}" * 32, "the line nests too deep"),
                                ("lists one after another", "[" + "[]," * 60 + "0]", "user is not in its form"),
                                ("brackets in a text", '"\\"' + "[{" * 60 + '"', "user is not in its form")):
        tests.check(f"a line of {what}", host.raw(f'{{"id":1,"act":"rows","user":{value}}}'.encode()), {"id": 1, "error": wanted})
    tests.check("the end", host.end(), (0, b"", ""))


def begin_of(finish, expected):
    """The line that begins a session which expects what a recorded one did."""
    members = {"user_verification": expected["user_verification"]}
    if expected["user"]:
        members["user"] = expected["user"]
    if finish == "finish_registration":
        return {"act": "begin_registration", "user_name": "name", "algorithms": expected["algorithms"], **members}
    return {"act": "begin_sign_in", "allow": expected["allow"], **members}


def random_file(path, challenges):
    """A file that gives challenges these bytes after their numbers, the first of the first line, and then others."""
    path.write_bytes(b"".join(from_text(challenge, "challenge")[8:] for challenge in challenges) + os.urandom(1 << 20))
    return path


def browser(tests):
    """What a browser made (python/tests/recorded.json), in sessions whose random bytes are those of the recorded challenges: so
    these are the bytes of each challenge after its number, in their order, each used once."""
    recorded = json.loads((top / "python" / "tests" / "recorded.json").read_text())
    path = tests.file("browser.db")
    party = [path, "--rp-id", "localhost", "--origin", recorded["origin"]]
    lines = [(act, line) for visit in recorded["visits"] for act, line in (
        ("finish_registration", visit["registration"]), *(("finish_sign_in", line) for line in visit["sign_ins"]))]
    challenges = [line["session"]["challenge"] for _, line in lines]
    host = Host(tests.program, *party, "--new", random_bytes=random_file(tests.file("random"), challenges))
    begun = [host.ask(**begin_of(act, line["session"])) for act, line in lines]
    tests.check("the challenges", [one["options"]["challenge"] for one in begun], challenges)
    for (act, line), one in zip(lines, begun):
        answer = host.finish(act, one["session"], line["response"])
        tests.check(f"{act} {one['number']}", answer.get("accepted", answer).get("credential"), line["response"]["id"])
        again = host.finish(act, one["session"], line["response"])
        tests.check(f"{act} {one['number']} again", again["refused"]["number"], 1)
    # Each of the commits has reserved 1,000 numbers.
    left = host.ask("begin_sign_in")
    tests.check("the next session", left["number"], 1_000 * len(lines) + 1)
    rows = host.ask("rows")["rows"]
    tests.check("what was registered", len(rows), len(recorded["visits"]))
    tests.check("the end", host.end(), (0, b"", ""))
    host = Host(tests.program, *party, "--existing")
    tests.check("the rows after a restart", host.ask("rows")["rows"], rows)
    for one, step in ((begun[1], 1), (left, 7)):
        tests.check("sessions from before it", host.finish("finish_sign_in", one["session"], lines[1][1]["response"])["refused"]["number"], step)
    tests.check("no number comes again", host.ask("begin_sign_in")["number"] > left["number"])
    tests.check("the end", host.end(), (0, b"", ""))
    for words, why in ((["--new"], "there is a file at this path\n"),
                       (["--rp-id", "other.example", "--origin", "https://other.example"], "")):
        status, rest, errors = Host(tests.program, *party[:1], *(words if "--rp-id" in words else party[1:3] + words),
                                    *party[3:]).end()
        tests.check(f"{words}", (status, rest, why in errors), (4, b"", True))


def killed(tests):
    """What was answered is there after the program is killed, and what was begun."""
    host = Host(tests.program, tests.file("killed.db"), *PARTY)
    device = Device(EDDSA)
    visit(tests, host, device)
    begun = host.ask("begin_sign_in", user=to_text(USER))
    before = host.ask("rows")
    host.process.kill()
    host.process.wait()
    host = Host(tests.program, tests.file("killed.db"), *PARTY)
    tests.check("the rows after a kill", host.ask("rows"), before)
    found = host.finish("finish_sign_in", begun["session"], device.sign_in(begun["options"]))
    tests.check("a session from before a kill", found.get("accepted", found).get("sign_count"), device.count)
    after = host.ask("begin_sign_in", user=to_text(USER))
    tests.check("its number comes no more", after["number"] > begun["number"])
    tests.check("a new session", "accepted" in host.finish("finish_sign_in", after["session"], device.sign_in(after["options"])))
    tests.check("the end", host.end(), (0, b"", ""))


def resident(host):
    """The memory of the process, in kB."""
    return int(Path(f"/proc/{host.process.pid}/status").read_text().split("VmRSS:")[1].split()[0])


def malformed(rng, good):
    """A line that is none."""
    line = rng.choice(good)
    kind = rng.randrange(9)
    if kind == 0:
        return line[:rng.randrange(len(line))]
    if kind == 1:
        depth = rng.choice((128, 1000, 30000))
        return b'{"id":1,"act":"rows","user":' + b"[" * depth + b"]" * depth + b"}"
    value = json.loads(line)
    name = rng.choice([name for name in value if name != "user_verification"])
    if kind == 2:
        texts = () if name in ("user_name", "display_name") else ("=", "A")
        lists = () if name == "allow" else ([],)
        value[name] = rng.choice(({}, True, -1, 1.5, [[]], {"a": 1}, *texts, *lists))
    elif kind == 3:
        del value[name]
        if name in ("user", "allow", "verified", "display_name"):
            return b"null"
    elif kind == 4:
        value["user_verificaton"] = True
    elif kind == 5:
        return line + rng.choice((b"x", b"{}", b"\0"))
    elif kind == 6:
        return b'{"id":1,"act":"rows","user":"' + b"A" * rng.choice((65536, 1 << 20, 3 << 20)) + b'"}'
    elif kind == 7:
        at = rng.randrange(len(line))
        return line[:at] + rng.choice((b"\xff", b"\xc3", b"\xed\xa0\x80")) + line[at:]
    else:
        value["act"] = rng.choice(("", "Rows", "begin", 1, None))
    return json.dumps(value).encode()


def bad_lines(tests, count=2000):
    """Malformed lines, each of which is an error, and changes nothing."""
    host = Host(tests.program, tests.file("bad.db"), *PARTY)
    device = Device(ES256)
    visit(tests, host, device)
    begun = host.ask("begin_sign_in", user=to_text(USER))
    answered = device.sign_in(begun["options"])
    verified = host.ask("finish_sign_in", session=begun["session"], response=answered)["verify"]
    before, kept = host.ask("rows"), resident(host)
    good = [json.dumps(line).encode() for line in (
        {"id": 1, "act": "finish_sign_in", "session": begun["session"], "response": answered, "verified": verified},
        {"id": 1, "act": "begin_sign_in", "user": to_text(USER), "allow": ["AQ"]},
        {"id": 1, "act": "begin_registration", "user": to_text(USER), "user_name": "n", "display_name": "d"},
        {"id": 1, "act": "retire", "credential": to_text(device.id)},
        {"id": 1, "act": "abandon", "session": begun["session"]})]
    rng = random.Random(7)
    for number in range(count):
        line = malformed(rng, good)
        answer = host.raw(line)
        if "error" not in answer:
            tests.check(f"malformed line {number} {line[:200]}", answer, "error")
            break
    else:
        tests.check(f"{count} malformed lines", True)
    tests.check("the rows after them", host.ask("rows"), before)
    print(f"note: {kept} kB before them, {resident(host)} kB after")
    tests.check("memory is not kept", resident(host) < kept + 4096)
    last = host.ask("begin_sign_in", user=to_text(USER))
    tests.check("no session began", last["number"], begun["number"] + 1)
    tests.check("the session is open", "accepted" in host.finish("finish_sign_in", begun["session"], answered))
    tests.check("the end", host.end(), (0, b"", ""))


KNOWN = ("created_at", "used_at", "transports", "aaguid")


def known(host):
    return [tuple(row[name] for name in KNOWN) for row in host.ask("rows")["rows"]]


def details(tests):
    """What is known of a credential beside what verdicts ask for: kept with it, given back in options, gone with it; and what is
    told of rows that others have written, or that are damaged."""
    path = tests.file("details.db")
    host = Host(tests.program, path, *PARTY, "--no-sums")
    one, two = Device(ES256, credential=b"one"), Device(EDDSA, credential=b"two")
    began = int(time.time())
    # Those of the response are kept where the line has none.
    for device, in_response, members in ((one, ["usb", "smart-card"], {}), (two, ["nfc"], {"transports": []})):
        begun = host.ask("begin_registration", user=to_text(USER), user_name="name", exclude=[to_text(b"one"), to_text(b"two")])
        tests.check("excluded", [each.get("transports") for each in begun["options"]["excludeCredentials"]],
                    [None if device is one else ["usb", "smart-card"], None])
        made = device.register(begun["options"])
        made["response"]["transports"] = in_response
        tests.check("registered", "accepted" in host.ask("finish_registration", session=begun["session"], response=made, **members))
    (created, used, transports, aaguid), (_, _, none, other) = known(host)
    tests.check("as it was registered", (used, transports, aaguid, none, other),
                (None, ["usb", "smart-card"], to_text(one.aaguid), [], to_text(two.aaguid)))
    tests.check("its second", began <= created <= int(time.time()))
    begun = host.ask("begin_sign_in", allow=[to_text(b"two"), to_text(b"one"), to_text(b"none")])
    tests.check("allowed", [each.get("transports") for each in begun["options"]["allowCredentials"]], [None, ["usb", "smart-card"], None])
    tests.check("signed in", "accepted" in host.finish("finish_sign_in", begun["session"], one.sign_in(begun["options"], user=USER)))
    (again, used, transports, _), second = known(host)
    tests.check("as it was used", (again, transports, second[1]), (created, ["usb", "smart-card"], None))
    tests.check("the second of its use", created <= used <= int(time.time()))
    for wrong in (["USB"], [""], ["a,b"], ["a" * 33], [7], "usb", ["usb"] * 17):
        told = {**made, "response": {**made["response"], "transports": wrong}}
        for members in ({"response": made, "transports": wrong}, {"response": told}):
            tests.check(f"transports {wrong}", host.ask("finish_registration", session=begun["session"], **members), {"error": "transports is not in its form"})
    tests.check("deleted", host.ask("delete", credential=to_text(b"one")), {"deleted": True})
    tests.check("the end", host.end(), (0, b"", ""))
    file = sqlite3.connect(path)
    tests.check("the details that are left", file.execute("select place, transports, length(aaguid), used_at from detail").fetchall(), [(2, "", 16, None)])
    file.close()
    for change, wanted in (("update detail set aaguid = x'%s'" % ("07" * 15), (True, None, [], None)),
                           ("update detail set transports = 'usb,,nfc'", (True, None, [], None)),
                           ("delete from detail", (False, None, [], None))):
        file = sqlite3.connect(path)
        file.execute(change)
        file.commit()
        file.close()
        host = Host(tests.program, path, *PARTY, "--existing")
        (created, *rest), = known(host)
        tests.check(change, (created is not None, *rest), wanted)
        host.end()


def read_by_sqlite(tests):
    """What C's SQLite reads of a file that is closed: it is sound, and has the tables and a row of the site."""
    file = sqlite3.connect(tests.file("visits.db"))
    tests.check("the file is sound", file.execute("pragma integrity_check").fetchall(), [("ok",)])
    names = file.execute("select name from sqlite_schema order by rootpage").fetchall()
    tests.check("its tables", sorted(names), [(name,) for name in ("credential", "credential_by_id", "credential_by_user", "detail", "ended_session", "ended_user", "mark", "seal_key", "site")])
    rows = file.execute("select number, version, rp_id from site").fetchall()
    tests.check("the row of the site", rows, [(1, 4, PARTY[1])])
    tests.check("its key", file.execute("select number, length(key) from seal_key").fetchall(), [(1, 32)])
    ended = file.execute("select count(*) from ended_session").fetchone()[0]
    # Four registrations, eight sign-ins and two that were abandoned.
    tests.check("the sessions that have ended", ended, 14)
    places = file.execute("select place, length(x), retired in (0, 1) from credential").fetchall()
    tests.check("the rows of the credentials", places and all(row[2] for row in places))
    file.close()


def main():
    tests = Tests(str(Path(sys.argv[1]).resolve()))
    words(tests)
    visits(tests)
    read_by_sqlite(tests)
    details(tests)
    told(tests)
    logs(tests)
    numbers(tests)
    browser(tests)
    killed(tests)
    bad_lines(tests)
    return tests.verdict()


if __name__ == "__main__":
    sys.exit(main())
