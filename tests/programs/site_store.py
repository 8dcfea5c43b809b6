#!/usr/bin/python3
"""What the program of crates/site_main does with sessions that it seals and a file of credentials: tests/programs/site_store.py PROGRAM. Random
bytes, ends of sessions, their texts, deletions, lines that come together, many begins, `status`, backups. The last line is 'N passed, M failed'."""
import json
import sqlite3
import sys
import time
from pathlib import Path

from site_lines import AT, EDDSA, ES256, PARTY, USER, UV, Device, Host, Tests, from_text, resident, to_text, top, visit


def fresh_words(tests):
    """Each challenge has 24 bytes of the system's source that no other has, also over a restart, and where lines come together."""
    path, seen = tests.file("fresh.db"), []
    for _ in range(2):
        host = Host(tests.program, path, *PARTY)
        lines = [json.dumps({"id": number, "act": act, **({"user": "AQ", "user_name": "n"} if act == "begin_registration" else {})})
                 for number, act in enumerate(("begin_sign_in", "begin_registration") * 200)]
        host.process.stdin.write("".join(line + "\n" for line in lines).encode())
        host.process.stdin.flush()
        answers = [json.loads(host.process.stdout.readline()) for _ in lines]
        tests.check("answers come in order", [answer["id"] for answer in answers], list(range(len(lines))))
        seen += [(answer["number"], from_text(answer["options"]["challenge"], "challenge")) for answer in answers]
        tests.check("the end", host.end(), (0, b"", ""))
    words = [challenge[8:] for _, challenge in seen]
    tests.check("each challenge begins with its number", all(challenge[:8] == number.to_bytes(8, "big") for number, challenge in seen))
    tests.check("numbers rise", [number for number, _ in seen] == sorted({number for number, _ in seen}))
    tests.check("no 4 bytes in one place come twice", [at for at in range(0, 24, 4) if len({word[at:at + 4] for word in words}) < len(words) - 2], [])
    tests.check("each bit is both", [at for at in range(192) if len({word[at // 8] >> at % 8 & 1 for word in words}) < 2], [])


def ages(tests):
    """A session is open for as many seconds as are said, and no longer; by another program on the file too, whatever that says. What
    has ended is kept for as long, and no longer."""
    path = tests.file("ages.db")
    while True:
        host = Host(tests.program, path, *PARTY, "--expire", "3")
        host.ask("rows")
        time.sleep(1 - time.time() % 1)
        began, old, kept = int(time.time()), host.ask("begin_sign_in")["session"], host.ask("begin_sign_in")["session"]
        time.sleep(max(0, began + 2.2 - time.time()))
        early = host.ask("abandon", session=kept)["abandoned"]
        if time.time() < began + 3:
            break
        host.end()
    time.sleep(max(0, began + 3.1 - time.time()))
    late = host.ask("abandon", session=old)["abandoned"]
    tests.check("in its last second, and in the next", (early, late), (True, False))
    host.ask("abandon", session=host.ask("begin_sign_in")["session"])
    tests.check("the end", host.end(), (0, b"", ""))
    with sqlite3.connect(path) as file:
        tests.check("one that has ended is kept", file.execute("select count(*) from ended_session").fetchone(), (1,))
    file.close()
    host = Host(tests.program, path, *PARTY)
    longer = host.ask("begin_sign_in")["session"]
    tests.check("by another program", (host.ask("abandon", session=old)["abandoned"], host.end()[0]), (False, 0))
    host = Host(tests.program, path, *PARTY, "--expire", "1")
    time.sleep(2.1)
    tests.check("longer, by a third", (host.ask("abandon", session=longer)["abandoned"], host.end()[0]), (True, 0))
    for words, why in ((["--expire", "x"], "a number of seconds from 1 to 1000000"), (["--expire", "0"], "a number of seconds from 1 to 1000000"),
                       (["--expire", "1000001"], "a number of seconds from 1 to 1000000"), (["--max-credentials", "0"], "a number from 1 to 1000000"),
                       (["--max-credentials", "1000001"], "a number from 1 to 1000000"),
                       (["--max-credentials", "x"], "a number from 1 to 1000000"), (["--at-least", "-"], "a number")):
        tests.check(f"out of bounds: {words}", Host(tests.program, path, *PARTY, *words).end(),
                    (2, b"", f"{words[0]} takes {why}\n"))


def texts(tests):
    """The text of a session is of this site, of its ceremony, of one use, and of each of its bits; it outlives the program."""
    path, device, user = tests.file("texts.db"), Device(EDDSA), to_text(USER)
    host, another = Host(tests.program, path, *PARTY), Host(tests.program, tests.file("other.db"), *PARTY)

    def begun():
        return host.ask("begin_sign_in", user=user), host.ask("begin_registration", user=user, user_name="name")

    def steps(host, signs, makes):
        """How the two sessions are answered that these texts are said to be of: a refusal, or the signature is asked for."""
        response, made = device.sign_in(signs["options"]), Device(ES256, credential=b"made").register(makes["options"], flags=UV | AT)
        return [host.ask(act, session=session, response=said).get("refused", {}).get("name")
                for act, session, said in (("finish_sign_in", signs["session"], response), ("finish_registration", makes["session"], made))]

    visit(tests, host, device)
    visit(tests, another, device)
    signs, makes = begun()
    tests.check("open", steps(host, signs, makes), [None, "G9"])
    tests.check("of the other ceremony", steps(host, {**signs, "session": makes["session"]}, {**makes, "session": signs["session"]}), ["W1", "G1"])
    tests.check("of another site", steps(another, signs, makes), ["W1", "G1"])
    wrong = []
    for one in (signs, makes):
        data = from_text(one["session"], "")
        for at in range(len(data)):
            for bit in (range(8) if at < 17 else (at % 8,)):
                text = to_text(data[:at] + bytes([data[at] ^ 1 << bit]) + data[at + 1:])
                if steps(host, {**signs, "session": text}, {**makes, "session": text}) != ["W1", "G1"] or host.ask("abandon", session=text)["abandoned"]:
                    wrong.append((at, bit))
        for text in ("", to_text(data[:-1]), to_text(data[1:]), to_text(data + b"\0"), to_text(b"\0" + data), to_text(bytes(len(data)))):
            if steps(host, {**signs, "session": text}, {**makes, "session": text}) != ["W1", "G1"]:
                wrong.append(text)
    tests.check("each bit of a text", wrong, [])
    for text in (5, None, ["AA"], "A", "AB", "=", "AA==", " ", "\u00e9"):
        tests.check(f"no text: {text!r}", [list(host.ask("abandon", session=text)), list(host.ask("finish_sign_in", session=text, response={}))], [["error"]] * 2)
    tests.check("the end", host.end(), (0, b"", ""))
    host = Host(tests.program, path, *PARTY)
    tests.check("after a restart", steps(host, signs, makes), [None, "G9"])
    later = begun()
    response = device.sign_in(signs["options"])
    tests.check("signed in", "accepted" in host.finish("finish_sign_in", signs["session"], response))
    made = Device(ES256, credential=b"made").register(makes["options"])
    tests.check("registered", "accepted" in host.finish("finish_registration", makes["session"], made))
    tests.check("abandoned", [host.ask("abandon", session=one["session"])["abandoned"] for one in later], [True, True])
    for _ in range(2):
        tests.check("what was accepted", steps(host, signs, makes), ["W1", "G1"])
        tests.check("what was abandoned", steps(host, *later), ["W1", "G1"])
        host.process.kill()
        host.process.wait()
        host = Host(tests.program, path, *PARTY, "--existing")
    for act, members in (("retire", {"credential": to_text(device.id)}), ("delete", {"credential": to_text(device.id)}), ("retire_all", {"user": user}), ("erase", {"user": user})):
        signs, makes = begun()
        host.ask(act, **members)
        tests.check(f"after {act}", steps(host, signs, makes)[1], "G1")
        tests.check(f"what begins after {act}", steps(host, signs, begun()[1])[1], "G9")
    tests.check("the ends", (host.end()[0], another.end()[0]), (0, 0))


def endings(tests):
    """All credentials of a user are retired, or deleted, at once; those of another stay."""
    host, mine, theirs = Host(tests.program, tests.file("endings.db"), *PARTY), to_text(USER), to_text(b"another")
    for number in range(12):
        begun = host.ask("begin_registration", user=mine if number % 3 else theirs, user_name="name")
        host.ask("finish_registration", session=begun["session"], response=Device(EDDSA, credential=b"%d" % number).register(begun["options"]))
    host.ask("retire", credential=to_text(b"1"))
    tests.check("retired", [host.ask("retire_all", user=user) for user in (mine, mine, "AA")], [{"retired_all": count} for count in (7, 0, 0)])
    tests.check("the rows", [[row["retired"] for row in host.ask("rows", user=user)["rows"]] for user in (mine, theirs)], [[True] * 8, [False] * 4])
    tests.check("erased", [host.ask("erase", user=user) for user in (mine, mine, "AA")], [{"erased": count} for count in (8, 0, 0)])
    tests.check("the rows that are left", [row["user"] for row in host.ask("rows")["rows"]], [theirs] * 4)
    tests.check("the end", host.end(), (0, b"", ""))
    with sqlite3.connect(tests.file("endings.db")) as file:
        tests.check("details that are left", file.execute("select count(*) from detail").fetchone(), (4,))
    file.close()


def begins(tests, count=100_000):
    """However many begin, none is refused, none that began before ends, and memory does not grow."""
    host, device = Host(tests.program, tests.file("begins.db"), *PARTY, "--expire", "1000000"), Device(EDDSA)
    visit(tests, host, device)
    first, line = host.ask("begin_sign_in"), b'{"id":1,"act":"begin_sign_in"}\n'

    def ask(times):
        answers = []
        for _ in range(times // 500):
            host.process.stdin.write(line * 500)
            host.process.stdin.flush()
            answers += [host.process.stdout.readline() for _ in range(500)]
        return sum(b'"session"' in answer for answer in answers)

    ask(1_000)
    before = resident(host)
    tests.check(f"{count} begins", ask(count), count)
    tests.check(f"memory: {before} kB, {resident(host)} kB after", resident(host) < before + 4096)
    tests.check("the first is open", "accepted" in host.finish("finish_sign_in", first["session"], device.sign_in(first["options"], user=USER)))
    tests.check("the end", host.end(), (0, b"", ""))


def deleted(tests):
    """A credential that is deleted is gone, over a restart too; its id may be registered again, by another's too."""
    path = tests.file("deleted.db")
    host = Host(tests.program, path, *PARTY, "--max-credentials", "2")
    one, two = Device(ES256, credential=b"one"), Device(EDDSA, credential=b"two")
    for device in (one, two):
        begun = host.ask("begin_registration", user=to_text(USER), user_name="name")
        tests.check("registered", "accepted" in host.finish("finish_registration", begun["session"], device.register(begun["options"])))
    begun = host.ask("begin_registration", user=to_text(USER), user_name="name")
    full = host.finish("finish_registration", begun["session"], Device(ES256, credential=b"three").register(begun["options"]))
    tests.check("a third is too many", full["refused"]["name"], "G16")
    tests.check("deleted", [host.ask("delete", credential=to_text(b"one")) for _ in range(2)], [{"deleted": True}, {"deleted": False}])
    tests.check("no other is", [row["credential"] for row in host.ask("rows")["rows"]], [to_text(b"two")])
    begun = host.ask("begin_sign_in")
    found = host.finish("finish_sign_in", begun["session"], one.sign_in(begun["options"], user=USER))
    tests.check("it signs in no more", found["refused"]["name"], "W3")
    tests.check("the end", host.end(), (0, b"", ""))
    with sqlite3.connect(path) as file:
        tests.check("nothing of it is left", file.execute("select count(*) from credential where id = ?", (b"one",)).fetchone(), (0,))
    file.close()
    host = Host(tests.program, path, *PARTY)
    again = Device(ES256, credential=b"one")
    begun = host.ask("begin_registration", user=to_text(b"another"), user_name="name")
    tests.check("its id is registered again", "accepted" in host.finish("finish_registration", begun["session"], again.register(begun["options"])))
    tests.check("in order of registration", [row["credential"] for row in host.ask("rows")["rows"]], [to_text(b"two"), to_text(b"one")])
    begun = host.ask("begin_sign_in")
    found = host.finish("finish_sign_in", begun["session"], one.sign_in(begun["options"], user=b"another"))
    tests.check("the old key is not its key", found["refused"]["name"], "W14")
    tests.check("the end", host.end(), (0, b"", ""))


def together(tests, count=40):
    """Lines that come together are carried out in order and committed together, each answered by its own number."""
    host = Host(tests.program, tests.file("together.db"), *PARTY)
    devices = [Device(EDDSA, credential=b"%d together" % number) for number in range(count)]
    for device in devices:
        begun = host.ask("begin_registration", user=to_text(USER), user_name="name")
        host.finish("finish_registration", begun["session"], device.register(begun["options"]))
    lines = []
    for device in devices:
        begun = host.ask("begin_sign_in", user=to_text(USER))
        response = device.sign_in(begun["options"])
        asked = host.ask("finish_sign_in", session=begun["session"], response=response)["verify"]
        lines.append({"act": "finish_sign_in", "session": begun["session"], "response": response, "verified": asked})
    before = host.ask("status")["status"]["commits"]
    said = [*lines, lines[0], {"act": "retire", "credential": to_text(devices[0].id)}, {"act": "rows"}, {"act": "nothing"}]
    host.process.stdin.write("".join(json.dumps({"id": number, **line}) + "\n" for number, line in enumerate(said)).encode())
    host.process.stdin.flush()
    answers = [json.loads(host.process.stdout.readline()) for _ in said]
    tests.check("the numbers of their answers", [answer["id"] for answer in answers], list(range(len(said))))
    tests.check("each signs in", [answer.get("accepted", {}).get("credential") for answer in answers[:count]], [to_text(device.id) for device in devices])
    tests.check("once", answers[count]["refused"]["name"], "W1")
    tests.check("what follows sees it", [[row["sign_count"], row["retired"]] for row in answers[count + 2]["rows"]],
                [[1, number == 0] for number in range(count)])
    tests.check("and one in error", "error" in answers[count + 3])
    commits = host.ask("status")["status"]["commits"] - before
    tests.check(f"{commits} commits of {count + 1} lines that write", 1 <= commits <= 10)
    tests.check("the end", host.end(), (0, b"", ""))


def status(tests):
    """What `status` counts."""
    host = Host(tests.program, tests.file("status.db"), *PARTY)
    version = (top / "VERSION").read_text().strip()
    nothing = {"version": version, "credentials": 0, "next_session": 1, "commits": 0, "last_commit_microseconds": 0,
               "sign_ins": 0, "registrations": 0, "sign_ins_refused": {}, "registrations_refused": {}, "lost_log_lines": 0}
    tests.check("at the start", host.ask("status"), {"status": nothing})
    visit(tests, host, Device(EDDSA))
    host.ask("begin_sign_in")
    found = host.ask("status")["status"]
    tests.check("after a visit", [found[name] for name in ("credentials", "sign_ins", "registrations", "registrations_refused")],
                [1, 2, 1, {"G1": 1}])
    tests.check("refusals by step", {name: found["sign_ins_refused"][name] > 0 for name in found["sign_ins_refused"]}, {"W1": True, "W14": True})
    # A block of numbers, a registration and two sign-ins: begins and refusals write nothing.
    tests.check("commits", (found["commits"], 0 < found["last_commit_microseconds"] < 10**7), (4, True))
    tests.check("the end", host.end(), (0, b"", ""))


def lost(tests):
    """A log that can't be written is counted, and ends nothing."""
    with open("/dev/full", "wb") as full:
        host = Host(tests.program, tests.file("lost.db"), *PARTY, "--log", "all", errors=full)
        for device in (Device(ES256), Device(EDDSA, credential=b"later")):
            visit(tests, host, device)
        status = host.ask("status")["status"]
        tests.check("the lines that are lost", status["lost_log_lines"],
                    status["sign_ins"] + status["registrations"] + sum((status["sign_ins_refused"] | status["registrations_refused"]).values()))
        tests.check("the end", host.ended(), (0, b""))


def backups(tests):
    """A backup is a whole file of one moment, made while the program serves; where something stands it is refused."""
    path, copy = tests.file("backup.db"), tests.file("copy.db")
    host = Host(tests.program, path, *PARTY)
    visit(tests, host, Device(ES256))
    rows = host.ask("rows")
    tests.check("a backup", host.ask("backup", path=str(copy)), {"backup": True})
    kept = copy.read_bytes()
    refusal = {"error": "the file was not copied: there is a file at this path"}
    tests.check("a second to the same path", host.ask("backup", path=str(copy)), refusal)
    tests.check("to the file itself", host.ask("backup", path=str(path)), refusal)
    tests.check("to no folder", "error" in host.ask("backup", path=str(tests.file("nowhere") / "copy.db")))
    tests.check("the copy is as it was", copy.read_bytes() == kept)
    tests.check("another process still finds it in use", Host(tests.program, path, *PARTY).end()[2], "the file is in use\n")
    visit(tests, host, Device(EDDSA, credential=b"later"))
    tests.check("it serves on", len(host.ask("rows")["rows"]), 2)
    tests.check("the end", host.end(), (0, b"", ""))
    tests.check("nothing else stands beside it", sorted(one.name for one in path.parent.glob("copy.db*")), ["copy.db"])
    host = Host(tests.program, copy, *PARTY, "--existing")
    tests.check("the copy's rows", host.ask("rows"), rows)
    tests.check("the end", host.end(), (0, b"", ""))


def linked(tests):
    """A backup of a file that is opened through a symbolic link has what stands in the log beside the file itself."""
    path, link, copy = tests.file("linked.db"), tests.file("link.db"), tests.file("of-link.db")
    tests.check("a file", Host(tests.program, path, *PARTY).end(), (0, b"", ""))
    link.symlink_to(path)
    host = Host(tests.program, link, *PARTY)
    device = Device(ES256)
    visit(tests, host, device)
    visit(tests, host, Device(EDDSA, credential=b"later"))
    host.ask("retire", credential=to_text(device.id))
    rows = host.ask("rows")
    tests.check("a backup through a link", host.ask("backup", path=str(copy)), {"backup": True})
    following = host.ask("status")["status"]["next_session"]
    host.process.kill()
    host.process.wait()
    host = Host(tests.program, copy, *PARTY, "--existing")
    tests.check("its rows, one of them retired", (host.ask("rows"), [row["retired"] for row in rows["rows"]]), (rows, [True, False]))
    tests.check("its numbers go on", host.ask("status")["status"]["next_session"] >= following)
    tests.check("the end", host.end(), (0, b"", ""))


def main():
    tests = Tests(str(Path(sys.argv[1]).resolve()))
    for part in (fresh_words, ages, texts, endings, begins, deleted, together, status, lost, backups, linked):
        part(tests)
    return tests.verdict()


if __name__ == "__main__":
    sys.exit(main())
