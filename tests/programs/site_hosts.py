#!/usr/bin/python3
"""What hosts of crates/site_main meet: tests/programs/site_hosts.py PROGRAM. The Python package over it, with many threads, kills
and a failing disk; Node and Go where they are there; a second process on one file, folders and rights; credentials that are
moved in and out. The last line is 'N passed, M failed'."""
import json
import os
import random
import resource
import shutil
import signal
import sqlite3
import subprocess
import sys
import threading
import time
import urllib.error
import urllib.request
from collections import Counter
from pathlib import Path

top = Path(__file__).resolve().parents[2]
subprocess.run([top / "python" / "prepare"], check=True)
sys.path[:0] = [str(top / "python"), str(top / "python" / "tests")]
from device import AT, ED, UP, UV, Device, changed  # noqa: E402
from garvoeng import EDDSA, ES256, RS256, BadInput, Credential, Refused, Registered, Server, SignedIn  # noqa: E402
from garvoeng.forms import from_text  # noqa: E402
from garvoeng.stored import StoredServer, StoreFailed  # noqa: E402
import site_lines  # noqa: E402
from site_lines import ORIGIN, PARTY, RP_ID, USER, begin_of, in_place_of_random, random_file  # noqa: E402

ROWS = b'{"id":1,"act":"rows"}\n'


class Tests(site_lines.Tests):
    def __init__(self, program):
        super().__init__(program)
        os.chmod(self.folder.name, 0o755)

    def file(self, name):
        return str(super().file(name))

    def server(self, name, **how):
        return StoredServer(self.program, self.file(name), RP_ID, [ORIGIN], "A site", **how)

    def ends(self, what, path, wanted, why, words=(), said=ROWS, **how):
        """A run of the program on these lines: its status, and what standard error says."""
        run = subprocess.run([self.program, path, *PARTY, *words], input=said, capture_output=True, timeout=60, **how)
        self.check(f"{what}: status", run.returncode, wanted)
        self.check(f"{what}: {run.stderr.decode()}", why in run.stderr.decode())


def raised(call, *words, **named):
    try:
        return call(*words, **named)
    except Exception as error:  # noqa: BLE001
        return type(error), getattr(error, "name", str(error))


def signed(device, user=USER):
    """What is told of the device's last sign-in."""
    stored = Credential(device.id, user, device.algorithm, device.x, device.y, device.count, False)
    return SignedIn(stored, None, False, True, UP | UV, b"")


def registered(server, device, user=USER, **how):
    options, session = server.register_begin(user, "name", **how)
    return server.register_complete(session, device.register(options))


def visits(tests):
    """The four calls, as those of the package's other server."""
    with tests.server("visits.db") as server:
        for number, algorithm in enumerate((ES256, EDDSA, RS256)):
            device = Device(algorithm, credential=b"%d" % number)
            made = registered(server, device)
            stored = Credential(device.id, USER, algorithm, device.x, device.y, 0, False)
            tests.check(f"registered {algorithm}", made, Registered(stored, device.aaguid, "none", True, False, UP | UV | AT, b""))
            options, session = server.authenticate_begin(user=USER, allow=[device.id])
            response = device.sign_in(options)
            wrong = changed(response, "signature", lambda data: data[:-1] + bytes([data[-1] ^ 1]))
            tests.check("a wrong signature", raised(server.authenticate_complete, session, wrong), (Refused, "W14"))
            tests.check("signed in", server.authenticate_complete(session, response), signed(device))
            tests.check("once", raised(server.authenticate_complete, session, response), (Refused, "W1"))
        tests.check("rows", [(row.id, row.sign_count) for row in server.rows(USER)], [(b"0", 1), (b"1", 1), (b"2", 1)])
        tests.check("nobody's rows", server.rows(b"nobody"), [])
        again = raised(registered, server, device)
        tests.check("an id that is registered", again, (Refused, "G15"))
        tests.check("no session", raised(server.authenticate_complete, None, response), (Refused, "W1"))
        tests.check("retired", (server.retire(b"2"), server.retire(b"2")), (True, False))
        tests.check("listed as retired", [row.retired for row in server.rows()], [False, False, True])
        options, session = server.authenticate_begin()
        tests.check("a retired one", raised(server.authenticate_complete, session, device.sign_in(options)), (Refused, "W3"))
        tests.check("abandoned", (server.abandon(session), server.abandon(session)), (True, False))
        tests.check("no user handle", raised(server.register_begin, b"", "name")[0], BadInput)
        tests.check("no response", raised(server.authenticate_complete, session, {"id": "AA"})[0], BadInput)
        deep = {"id": "AA", "rawId": "AA", "response": json.loads("[" * 300 + "]" * 300)}
        tests.check("a response that nests too deep", raised(server.authenticate_complete, session, deep)[0], BadInput)
        large = {"id": "A" * 70_000, "rawId": "AA", "response": {}}
        tests.check("a response that is too large", raised(server.authenticate_complete, session, large)[0], BadInput)
        tests.check("no algorithm", raised(server.register_begin, USER, "name", algorithms=[])[0], BadInput)


def settings(tests):
    """What a begin asks for, and what the site takes."""
    with tests.server("settings.db") as server:
        options, session = server.register_begin(USER, "name", "display", exclude=[b"1"], user_verification=True, resident_key=False,
                                                 algorithms=[EDDSA])
        tests.check("creation options", (options["user"]["displayName"], options["excludeCredentials"],
                                         options["authenticatorSelection"]["userVerification"],
                                         options["authenticatorSelection"]["residentKey"], options["pubKeyCredParams"]),
                    ("display", [{"type": "public-key", "id": "MQ"}], "required", "discouraged",
                     [{"type": "public-key", "alg": EDDSA}]))
        response = Device(ES256).register(options)
        tests.check("an algorithm that was not offered", raised(server.register_complete, session, response), (Refused, "G11"))
        options, session = server.authenticate_begin(allow=[b"1"], user_verification=True)
        tests.check("request options", (options["allowCredentials"], options["userVerification"]),
                    ([{"type": "public-key", "id": "MQ"}], "required"))
        with_extensions = Device(EDDSA, credential=b"with extensions")
        options, session = server.register_begin(USER, "name")
        made = with_extensions.register(options, flags=UP | UV | AT | ED, outputs=b"\xa1\x6bcredProtect\x02")
        made = server.register_complete(session, made)
        tests.check("extensions are handed on", (made.credential.id, made.flags, made.extensions),
                    (with_extensions.id, UP | UV | AT | ED, b"\xa1\x6bcredProtect\x02"))
        options, session = server.authenticate_begin(user=USER)
        who = server.authenticate_complete(session, with_extensions.sign_in(options, flags=UP | ED, outputs=b"\xa1\x61a\x01"))
        tests.check("and of a sign-in", (who.user_verified, who.flags, who.extensions), (False, UP | ED, b"\xa1\x61a\x01"))
    for name, how, packed, wanted in (
            ("none.db", {"accept_self": False}, True, "G14"), ("self.db", {"accept_none": False}, False, "G14"),
            ("strict.db", {"profile": "strict"}, None, "G7")):
        with tests.server(name, **how) as server:
            device = Device(EDDSA)
            options, session = server.register_begin(USER, "name", attestation="direct")
            made = device.register(options, flags=UP | UV | AT | ED, outputs=b"\xa1\x6bcredProtect\x02") if packed is None \
                else device.register(options, packed=packed)
            tests.check(name, raised(server.register_complete, session, made), (Refused, wanted))
            made = device.register(options, packed=False if packed is None else not packed)
            tests.check(f"{name}, as it takes them", server.register_complete(session, made).credential.id, device.id)
    with tests.server("first.db") as server:
        options, session = server.authenticate_begin()
        none = raised(server.authenticate_complete, None, Device(EDDSA).sign_in(options))
        tests.check("no session is not the first", (none, server.abandon(session)), ((Refused, "W1"), True))
    tests.check("no attestation at all", raised(tests.server, "none.db", accept_none=False, accept_self=False)[0], BadInput)
    tests.check("one origin in place of a list", raised(StoredServer, tests.program, "x", RP_ID, ORIGIN)[0], TypeError)


def start(tests):
    """The lines that the pages show."""
    program, file, device = tests.program, tests.file("start.db"), Device(ES256)

    def page(options):
        return device.register(options) if "pubKeyCredParams" in options else device.sign_in(options, b"account 7")

    with StoredServer(program, file, "example.com", ["https://example.com"]) as server:
        options, session = server.register_begin(user=b"account 7", user_name="name")
        registered = server.register_complete(session, page(options))

        options, session = server.authenticate_begin()
        signed_in = server.authenticate_complete(session, page(options))
    tests.check("the lines of the pages", (signed_in.credential.user, signed_in.credential.id), (b"account 7", registered.credential.id))


# What reads begins and finishes, a line of JSON each, and writes the program's answers, over the class of each host. A finish names the
# session by the number of its begin.
NODE = """import { createInterface } from "node:readline";
import { Site } from "SITE";
const site = new Site(...process.argv.slice(2)), begun = [];
for await (const line of createInterface({ input: process.stdin })) {
  const { act, session, response, ...members } = JSON.parse(line);
  const answer = await (response ? site.finish(act, begun[session - 1], response) : site.ask(act, members));
  if (!response) begun.push(answer.session);
  console.log(JSON.stringify(answer));
}
site.end();
"""
# The seconds that addresses have to wait after so many posts: of each line [ADDRESS, SECOND] of the first argument.
NODE_WAITS = """import { wait } from "SITE";
console.log(JSON.stringify(JSON.parse(process.argv[2]).map(([address, second]) => wait(address, second))));
"""
GO = """package main

import (
	"encoding/json"
	"os"
	"time"
)

func waits(text string) {
	posts, found, kept := [][]interface{}{}, []int{}, limit{}
	if err := json.Unmarshal([]byte(text), &posts); err != nil {
		panic(err)
	}
	for _, post := range posts {
		address := post[0].(string)
		if address != "" {
			address = "[" + address + "]:1"
		}
		found = append(found, kept.wait(address, time.UnixMilli(int64(post[1].(float64)*1000))))
	}
	json.NewEncoder(os.Stdout).Encode(found)
}

func main() {
	if len(os.Args) == 3 && os.Args[1] == "waits" {
		waits(os.Args[2])
		return
	}
	host := &site{words: os.Args[1:]}
	lines := json.NewDecoder(os.Stdin)
	lines.UseNumber()
	begun := []interface{}{}
	for line := (object{}); lines.Decode(&line) == nil; line = (object{}) {
		act := line["act"].(string)
		delete(line, "act")
		answer, err := object{}, error(nil)
		if line["response"] == nil {
			answer, err = host.ask(act, line)
			begun = append(begun, answer["session"])
		} else {
			number, _ := line["session"].(json.Number).Int64()
			answer, err = host.finish(act, begun[number-1], line["response"])
		}
		if err != nil {
			panic(err)
		}
		json.NewEncoder(os.Stdout).Encode(answer)
	}
	if now, err := host.start(); err == nil {
		now.in.Close()
		now.command.Wait()
	}
}
"""


def hosts_here(tests):
    """The hosts whose tools are here: the words by which each judges lines, and those by which it serves."""
    lines = top / "examples" / "lines"
    for tool in ("node", "go"):
        if shutil.which(tool) is None:
            print(f"note: there is no {tool} here")
            continue
        folder = Path(tests.file(f"{tool} host"))
        folder.mkdir()
        if tool == "node":
            (folder / "finishes.mjs").write_text(NODE.replace("SITE", str(lines / "site.mjs")))
            (folder / "waits.mjs").write_text(NODE_WAITS.replace("SITE", str(lines / "site.mjs")))
            yield tool, ["node", str(folder / "finishes.mjs")], ["node", str(lines / "site.mjs")], ["node", str(folder / "waits.mjs")]
        else:
            room = {**os.environ, "GO111MODULE": "off", "GOCACHE": tests.file("go"), "HOME": tests.folder.name}
            (folder / "main.go").write_text(GO)
            (folder / "site.go").write_text((lines / "site.go").read_text().replace("func main() {", "func serve() {"))
            for name, sources in (("finishes", ["main.go", "site.go"]), ("serve", [str(lines / "site.go")])):
                subprocess.run(["go", "build", "-o", name, *sources], cwd=folder, env=room, check=True, timeout=300)
            yield tool, [str(folder / "finishes")], [str(folder / "serve")], [str(folder / "finishes"), "waits"]


def of_a_browser(tests, tool, words):
    """What a browser made (python/tests/recorded.json), through a host: accepted once, and with another signature
    refused."""
    recorded = json.loads((top / "python" / "tests" / "recorded.json").read_text())
    finishes = [(act, one) for visit in recorded["visits"] for act, one in (
        ("finish_registration", visit["registration"]), *(("finish_sign_in", one) for one in visit["sign_ins"]))]
    lines = [{"act": act, "session": number, "response": one["response"]} for number, (act, one) in enumerate(finishes, 1)]
    last = dict(lines[-1], response=changed(lines[-1]["response"], "signature", lambda data: data[:-1] + bytes([data[-1] ^ 1])))
    begins = [begin_of(act, one["session"]) for act, one in finishes]
    said = "".join(json.dumps(line) + "\n" for line in [*begins, *lines[:-1], last, lines[-1], *lines])
    path = tests.file(f"{tool}.db")
    party = [path, "--rp-id", "localhost", "--origin", recorded["origin"]]
    random_bytes = random_file(Path(tests.file(f"{tool}.random")), [one["session"]["challenge"] for _, one in finishes])
    run = subprocess.run([*in_place_of_random(random_bytes), *words, tests.program, *party], input=said.encode(), capture_output=True, timeout=300)
    answers = [json.loads(line) for line in run.stdout.splitlines()][len(begins):]
    tests.check(f"{tool}: {run.stderr.decode()[-300:]}", (run.returncode, len(answers)), (0, 2 * len(lines) + 1))
    accepted = [answer.get("accepted", {}).get("credential") for answer in answers]
    wanted = [line["response"]["id"] for line in lines]
    tests.check(f"{tool}: each is accepted", accepted[:len(lines) + 1], [*wanted[:-1], None, wanted[-1]])
    tests.check(f"{tool}: another signature is not", answers[len(lines) - 1].get("refused", {}).get("name"), "W14")
    again = {answer.get("refused", {}).get("number") for answer in answers[len(lines) + 1:]}
    tests.check(f"{tool}: and none again", again, {1})


class Visitor:
    """A browser that keeps cookies."""

    def __init__(self, origin):
        self.origin, self.cookies = origin, {}

    def ask(self, path, body=None):
        """The status and the text of an answer."""
        kept = "; ".join(f"{name}={value}" for name, value in self.cookies.items())
        data = None if body is None else body if isinstance(body, bytes) else json.dumps(body).encode()
        try:
            answer = urllib.request.urlopen(urllib.request.Request(self.origin + path, data, {"Cookie": kept}), timeout=60)
        except urllib.error.HTTPError as error:
            answer = error
        with answer:
            for cookie in answer.headers.get_all("Set-Cookie", ()):
                name, value = cookie.split(";")[0].split("=", 1)
                self.cookies[name] = value
            return answer.status, answer.read().decode()

    def visit(self, act, device, user=None, change=lambda made: made):
        status, text = self.ask("/begin", {"act": act, "name": "ada"})
        assert status == 200, text
        options = json.loads(text)
        made = device.register(options) if act == "registration" else device.sign_in(options, user)
        return self.ask("/finish", change(made))


def children(process):
    found = subprocess.run(["ps", "-o", "pid=", "--ppid", str(process.pid)], capture_output=True, text=True).stdout
    return [int(pid) for pid in found.split()]


def served(tests, tool, words):
    """A whole site of a host: its page, a registration and sign-ins by cookies, what is refused, a program that dies and one
    that answers no more."""
    port = 8400 + os.getpid() % 500 + (tool == "go")
    origin, path = f"http://localhost:{port}", tests.file(f"{tool} site.db")
    party = [tests.program, path, "--rp-id", "localhost", "--origin", origin]
    process = subprocess.Popen([*words, str(port) if tool == "node" else f"localhost:{port}", *party])
    visitor, device = Visitor(origin), Device(ES256, rp_id="localhost", origin=origin)
    for _ in range(600):
        try:
            status, page = visitor.ask("/")
            break
        except OSError:
            time.sleep(0.1)
    tests.check(f"{tool}: the page", (status, "parseCreationOptionsFromJSON" in page), (200, True))
    status, text = visitor.visit("registration", device)
    tests.check(f"{tool}: registered: {text[:200]}", (status, from_text(json.loads(text)["credential"], "")), (200, device.id))
    user = from_text(json.loads(text)["user"], "user")
    status, text = visitor.visit("sign_in", device, user)
    tests.check(f"{tool}: signed in: {text[:200]}", (status, from_text(json.loads(text)["user"], "")), (200, user))
    wrong = visitor.visit("sign_in", device, user, lambda made: changed(made, "signature", lambda data: data[:-1] + b"\0"))
    tests.check(f"{tool}: a wrong signature", (wrong[0], wrong[1].strip()), (400, "W14: the signature is not valid"))
    stranger = Visitor(origin)
    stranger.ask("/begin", {"act": "sign_in"})
    tests.check(f"{tool}: without the cookie", Visitor(origin).visit("sign_in", device, user, lambda made: made)[0], 200)
    forged = Visitor(origin)
    forged.cookies["begun"] = "sign_in." + "A" * 102
    tests.check(f"{tool}: a forged cookie", forged.ask("/finish", device.sign_in({"challenge": "AA"}, user))[0:1], (400,))
    for body in (b"no JSON", b"null", b"[]", b"{}", b'{"response":' + b"[" * 200 + b"]" * 200 + b"}", b"x" * 70_000):
        status = visitor.ask("/finish", body)[0]
        tests.check(f"{tool}: {body[:20]} is no response", status, 400)
    tests.check(f"{tool}: another page", visitor.ask("/none")[0], 404)
    first = children(process)
    os.kill(first[0], signal.SIGKILL)
    found = []
    for _ in range(3):
        try:
            found.append(visitor.visit("sign_in", device, user)[0])
        except AssertionError:
            found.append(503)
    tests.check(f"{tool}: it starts a program that died again: {found}", found[-1], 200)
    # A program that answers no more: what was asked is rejected once it dies.
    stopped = children(process)[0]
    os.kill(stopped, signal.SIGSTOP)
    answers = []
    waiting = [threading.Thread(target=lambda: answers.append(visitor.ask("/begin", {"act": "sign_in"})[0])) for _ in range(8)]
    for thread in waiting:
        thread.start()
    time.sleep(2)
    os.kill(stopped, signal.SIGKILL)
    for thread in waiting:
        thread.join(60)
    tests.check(f"{tool}: calls in flight are rejected", answers, [503] * 8)
    tests.check(f"{tool}: and the next is served", visitor.visit("sign_in", device, user)[0], 200)
    process.kill()
    process.wait()
    with sqlite3.connect(path) as file:
        tests.check(f"{tool}: one credential", file.execute("select count(*) from credential").fetchone(), (1,))
    file.close()


def limited(tests, tool, words):
    """How long an address waits: 50 posts at once, then 5 a second, each address by itself, also where the clock is set back. This
    machine's own wait never."""
    posts = [*[["203.0.113.7", 1000]] * 51, ["198.51.100.1", 1000], ["2001:db8::1", 1000], ["203.0.113.7", 1000.1], ["203.0.113.7", 1000.3],
             ["203.0.113.7", 900], *[["203.0.113.7", 1100]] * 51, *[["127.0.0.1", 1000]] * 60, *[["::1", 1000]] * 60,
             *[["::ffff:127.0.0.1", 1000]] * 60, *[["", 1000]] * 60]
    wanted = [*[0] * 50, 1, 0, 0, 1, 0, 1, *[0] * 50, 1, *[0] * 240]
    done = subprocess.run([*words, json.dumps(posts)], capture_output=True, text=True, timeout=300)
    tests.check(f"{tool}: who posts too often waits {done.stderr[-300:]}", json.loads(done.stdout), wanted)


def other_hosts(tests):
    for tool, finishes, serves, waits in hosts_here(tests):
        of_a_browser(tests, tool, finishes)
        served(tests, tool, serves)
        limited(tests, tool, waits)


def lives(server, number, times, wrong, algorithm):
    """A visitor who registers and signs in so many times, with its passkey listed; what is not as it should be is appended to
    the wrong ones."""
    device, user = Device(algorithm, credential=b"of %d" % number), b"account %d" % number
    try:
        registered(server, device, user)
        for _ in range(times):
            options, session = server.authenticate_begin(user=user, allow=[device.id])
            who = server.authenticate_complete(session, device.sign_in(options))
            if who != signed(device, user):
                wrong.append(who)
    except Exception as error:  # noqa: BLE001
        wrong.append(error)


def at_once(tests, clients=16, times=10):
    """Many threads over one process: each gets its own answers."""
    wrong = []
    with tests.server("at_once.db") as server:
        threads = [threading.Thread(target=lives, args=(server, number, times, wrong, EDDSA)) for number in range(clients)]
        for thread in threads:
            thread.start()
        for thread in threads:
            thread.join()
        tests.check("many threads", wrong, [])
        tests.check("their counters", [row.sign_count for row in server.rows()], [times] * clients)


def killed(tests):
    """After a kill the next call starts the program again, and what was answered is there."""
    with tests.server("killed.db") as server:
        device = Device(ES256)
        registered(server, device)
        options, session = server.authenticate_begin(user=USER)
        server._process.process.kill()
        server._process.process.wait()
        response = device.sign_in(options)
        tests.check("signed in after a kill", server.authenticate_complete(session, response), signed(device))
        tests.check("once, after a kill", raised(server.authenticate_complete, session, response), (Refused, "W1"))
        for name in (signal.SIGTERM, signal.SIGINT, signal.SIGHUP):
            server._process.process.send_signal(name)
            server._process.process.wait()
            raised(server.rows)
            tests.check(f"the counter after {name.name}", [row.sign_count for row in server.rows()], [1])


def failing_disk(tests):
    """A disk that takes no more: a failure is told, and what was answered is found afterwards."""

    def small():
        signal.signal(signal.SIGXFSZ, signal.SIG_IGN)
        resource.setrlimit(resource.RLIMIT_FSIZE, (600_000, 600_000))

    path, told = tests.file("full.db"), []
    process = subprocess.Popen([tests.program, path, *PARTY], stdin=subprocess.PIPE, stdout=subprocess.PIPE, preexec_fn=small)

    def answered(act, **members):
        process.stdin.write(json.dumps({"id": 1, "act": act, **members}).encode() + b"\n")
        process.stdin.flush()
        return process.stdout.readline()

    for number in range(5000):
        device = Device(EDDSA, credential=b"of %d" % number)
        begun = json.loads(answered("begin_registration", user="AQ", user_name="name"))
        answer = answered("finish_registration", session=begun["session"], response=device.register(begun["options"]))
        if b'"accepted"' not in answer:
            break
        told.append(device.id)
    tests.check(f"a failure is told after {len(told)} registrations: {answer[:120]}", b'"failed"' in answer and len(told) > 10)
    tests.check("it says what failed", json.loads(answer)["failed"], "the store failed, and the site is shut: disk I/O error")
    for line in (ROWS, b'{"id":1,"act":"begin_sign_in"}\n', b'{"id":1,"act":"abandon","session":"AA"}\n', b'{"id":1,"act":"erase","user":"AQ"}\n',
                 b'{"id":1,"act":"retire","credential":"AQ"}\n', b'{"id":1,"act":"rows","user":"AQ"}\n'):
        process.stdin.write(line)
        process.stdin.flush()
        tests.check(f"a shut site tells nothing: {line}", list(json.loads(process.stdout.readline())), ["failed", "id"])
    process.stdin.close()
    process.wait()
    with tests.server("full.db") as server:
        found = [row.id for row in server.rows()]
        tests.check("each registration that was told", found[:len(told)], told)
        tests.check("and at most one more", len(found) in (len(told), len(told) + 1))
        tests.check("numbers go on", from_text(server.authenticate_begin()[0]["challenge"], "")[:8] > (len(told) + 1).to_bytes(8, "big"))


def wrong_files(tests):
    """What a person does wrong, told by name."""
    for words in ("--new", "--existing"):
        for bound, wanted, why in ((1_000_001, 2, "takes a number from 1 to 1000000"), (1_000_000, 0, "")):
            tests.ends(f"{bound} credentials, {words}", tests.file("most.db"), wanted, why, ["--max-credentials", str(bound), words])
    with tests.server("used.db") as server:
        server.rows()
        tests.ends("a second process", tests.file("used.db"), 4, "the file is in use")
        with tests.server("used.db") as other:
            tests.check("a second server", raised(other.rows)[0], StoreFailed)
    tests.ends("no folder", tests.file("none/site.db"), 4, "")
    tests.ends("a file that has to be there", tests.file("absent.db"), 4, "there is no file at this path", ["--existing"])
    tests.ends("a file that must not be there", tests.file("used.db"), 4, "there is a file at this path", ["--new"])
    run = subprocess.run([tests.program, tests.file("used.db"), "--rp-id", "example.org", "--origin", "https://example.org"], input=b"",
                         capture_output=True, timeout=60)
    tests.check("another rp id", (run.returncode, run.stderr), (4, b"the file is of another site or version\n"))
    Path(tests.file("text.db")).write_text("no database")
    tests.ends("a text", tests.file("text.db"), 4, "the file is no sound SQLite file")
    tests.check("which is as it was", Path(tests.file("text.db")).read_text(), "no database")
    if os.getuid() == 0:
        nobody = {"user": 65534, "group": 65534, "extra_groups": ()}
        tests.ends("no rights", tests.file("used.db"), 4, "the file can't be opened", **nobody)
    tests.ends("an option without its value", tests.file("used.db"), 2, "a value is required", ["--origin"])


def cut_off(tests, kills=40):
    """A creation that is killed at any moment leaves no file, or one that the next start takes up; one that has answered
    is there."""
    rng, left, told = random.Random(5), Counter(), 0
    for number in range(kills):
        path = Path(tests.file(f"cut{number}.db"))
        process = subprocess.Popen([tests.program, str(path), *PARTY, *([["--new"], []][number % 2])], stdin=subprocess.PIPE,
                                   stdout=subprocess.PIPE)
        process.stdin.write(b'{"id":1,"act":"begin_sign_in"}\n')
        process.stdin.flush()
        time.sleep(rng.random() * 0.03)
        process.kill()
        has_answered = process.communicate()[0] != b""
        told += has_answered
        left["a file" if path.exists() else "no file"] += 1
        tests.check(f"a log alone, {number}", Path(f"{path}-wal").exists() and not path.exists(), False)
        run = subprocess.run([tests.program, str(path), *PARTY], input=b'{"id":1,"act":"begin_sign_in"}\n', capture_output=True)
        begun = json.loads(run.stdout)["number"] if run.returncode == 0 else None
        tests.check(f"the start after kill {number}: {run.stderr}", begun is not None and begun > has_answered)
        tests.ends(f"and the next, {number}", str(path), 0, "", ["--existing"])
    print(f"note: {kills} creations were killed: {dict(left)}, of which {told} had answered")


def lone_logs(tests):
    """A log without its file, and what stands in a file's place."""
    path = tests.file("lone.db")
    tests.ends("a file", path, 0, "")
    log = Path(f"{path}-wal")
    tests.check("a log that has nothing is left", log.exists() and log.stat().st_size < 64)
    os.unlink(path)
    for words in ([], ["--new"], ["--existing"]):
        tests.ends(f"a log alone, {words}", path, 4, "delete the log", words)
        tests.check("which makes nothing", Path(path).exists(), False)
    log.unlink()
    tests.ends("without it", path, 0, "")
    log.unlink()
    tests.ends("a closed file without its log", path, 0, "", ["--existing"])
    Path(tests.file("empty.db")).touch()
    tests.ends("an empty file, where it has to be a site's", tests.file("empty.db"), 4, "the file has no site", ["--existing"])
    tests.ends("an empty file", tests.file("empty.db"), 0, "")
    tests.ends("which is a site's then", tests.file("empty.db"), 0, "", ["--existing"])
    with sqlite3.connect(tests.file("other.db")) as file:
        file.execute("create table note (id integer primary key)")
    file.close()
    kept = Path(tests.file("other.db")).read_bytes()
    for words, why in (([], "the file has other tables than a site's"), (["--new"], "there is a file at this path")):
        tests.ends(f"a file of other tables, {words}", tests.file("other.db"), 4, why, words)
        tests.check("which is as it was", Path(tests.file("other.db")).read_bytes(), kept)


def no_input(tests):
    """Without standard input the program ends at once, and makes nothing."""
    path = tests.file("closed.db")
    run = subprocess.run([tests.program, path, *PARTY], capture_output=True, timeout=60, preexec_fn=lambda: os.close(0))
    tests.check("standard input is closed", (run.returncode, run.stderr.decode()),
                (3, "standard input is closed, or can't be read\n"))
    tests.check("which makes no file", Path(path).exists(), False)
    run = subprocess.run([tests.program, path, *PARTY], capture_output=True, timeout=60, stdin=subprocess.DEVNULL)
    tests.check("an empty input", (run.returncode, run.stdout), (0, b""))


def clocks(tests):
    """A clock before 1970 ends the program, by Debian's faketime where it is there; one that goes on from there serves."""
    if shutil.which("faketime") is None:
        print("note: there is no faketime here")
        return
    path = tests.file("clock.db")
    for moment, wanted in (("1969-12-31 23:59:00", (3, "the clock reads a time before its start\n", 0)),
                           ("1970-01-01 00:00:10", (0, "", 1)), ("2100-01-01 00:00:00", (0, "", 1))):
        run = subprocess.run(["faketime", "-f", f"@{moment}", tests.program, path, *PARTY], input=b'{"id":1,"act":"begin_sign_in"}\n',
                             capture_output=True, text=False, timeout=60, env={**os.environ, "TZ": "UTC"})
        tests.check(f"the clock at {moment}", (run.returncode, run.stderr.decode(), run.stdout.count(b"\n")), wanted)


# An rp id and origins that no browser writes, and what refuses them.
PARTIES = [
    ("https://example.com", ["https://example.com"], "not a domain"), ("Example.com", ["https://example.com"], "not a domain"),
    ("", ["https://example.com"], "not a domain"), ("example.com.", ["https://example.com"], "not a domain"),
    (".example.com", ["https://example.com"], "not a domain"), ("example..com", ["https://example.com"], "not a domain"),
    ("-example.com", ["https://example.com"], "not a domain"), ("example.com:8080", ["https://example.com"], "not a domain"),
    ("a" * 254, ["https://example.com"], "not a domain"), ("b\u00fccher.example", ["https://example.com"], "not a domain"),
    ("127.0.0.1", ["http://127.0.0.1"], "is an IP address"), ("17", ["https://17"], "is an IP address"),
    ("example.com", ["https://example.com/"], "an origin is not"), ("example.com", ["https://example.com/page"], "an origin is not"),
    ("example.com", ["https://Example.com"], "an origin is not"), ("example.com", ["HTTPS://example.com"], "an origin is not"),
    ("example.com", ["example.com"], "an origin is not"), ("example.com", [""], "an origin is not"),
    ("example.com", ["https://"], "an origin is not"), ("example.com", ["https://example.com", "x"], "an origin is not"),
    ("example.com", ["https://user@example.com"], "an origin is not"), ("example.com", ["null"], "an origin is not"),
    ("example.com", ["https://[::1"], "an origin is not"), ("example.com", ["android:apk-key-hash:"], "an origin is not"),
    ("example.com", ["https://example.com:443"], "a port that browsers"), ("example.com", ["http://example.com:80"], "a port that"),
    ("example.com", ["https://example.com:0"], "a port that browsers"), ("example.com", ["https://example.com:65536"], "a port that"),
    ("example.com", ["https://example.com:08080"], "a port that"), ("example.com", ["https://example.com:"], "a port that"),
    ("example.com", ["https://example.org"], "not of an origin's host"), ("example.com", ["https://notexample.com"], "not of an"),
    ("example.com", ["https://example.com.evil.org"], "not of an"), ("login.example.com", ["https://example.com"], "not of an"),
]
GOOD_PARTIES = [
    ("localhost", ["http://localhost:8080"]), ("example.com", ["https://login.example.com:8443", "https://example.com"]),
    ("example.com", ["https://other.org", "https://example.com"]), ("example.com", ["android:apk-key-hash:A-_z09"]),
    ("example.com", ["ios+app://x", "https://example.com:65535"]), ("a_b.example", ["https://a_b.example"]),
    ("example.com", ["https://[::1]:8080", "https://example.com"]), ("xn--bcher-kva.example", ["https://xn--bcher-kva.example"]),
]


def parties(tests):
    """A relying party that no browser meets is refused at the start, before a file is made; Python's `Server` says the
    same of each."""
    path = tests.file("party.db")
    for rp_id, origins, why in [*PARTIES, *((*one, None) for one in GOOD_PARTIES)]:
        words = [f"--rp-id={rp_id}", *(f"--origin={origin}" for origin in origins)]
        run = subprocess.run([tests.program, path, *words], input=b"", capture_output=True, timeout=60)
        wanted = (2, True, False) if why else (0, True, True)
        tests.check(f"{rp_id[:40]} {origins}: {run.stderr}", (run.returncode, (why or "") in run.stderr.decode(),
                                                              Path(path).exists()), wanted)
        for left in (path, f"{path}-wal"):
            Path(left).unlink(missing_ok=True)
        tests.check(f"{rp_id[:40]} {origins}, to Python", isinstance(raised(Server, rp_id, origins), tuple), why is not None)
    run = subprocess.run([tests.program, path, "--rp-id", "example.com"], input=b"", capture_output=True, timeout=60)
    tests.check("no origin", (run.returncode, Path(path).exists()), (2, False))


def plain(row):
    """A row without what is known beside it."""
    return Credential(row.id, row.user, row.algorithm, row.x, row.y, row.sign_count, row.eligible, row.retired, row.transports)


def moved(tests):
    """Credentials of a site's own database, written by sqlite3 while no process has the file, and read back."""
    server, device = Server(RP_ID, [ORIGIN]), Device(RS256)
    options, session = server.register_begin(USER, "name")
    credential = server.register_complete(session, device.register(options), is_registered=lambda _: False).credential
    tests.ends("a new file", tests.file("moved.db"), 0, "", ["--new", "--no-sums"])
    with sqlite3.connect(tests.file("moved.db")) as file:
        file.execute("insert into credential values (1, ?, ?, ?, ?, ?, ?, ?, ?)", (
            credential.id, credential.user, credential.algorithm, credential.x, credential.y or None, credential.sign_count,
            credential.eligible, credential.retired))
    file.close()
    with tests.server("moved.db") as stored:
        tests.check("a credential that was moved in", [plain(row) for row in stored.rows()], [credential])
        options, session = stored.authenticate_begin(user=USER)
        tests.check("signs in", stored.authenticate_complete(session, device.sign_in(options)).credential.id, credential.id)
        rows = stored.rows()
    tests.check("moved out", [row.sign_count for row in rows], [1])
    with sqlite3.connect(tests.file("moved.db")) as file:
        found = file.execute("select id, user_handle, algorithm, x, ifnull(y, x''), sign_count, backup_eligible, retired from credential")
        tests.check("as sqlite3 reads it", [Credential(*row[:6], bool(row[6]), bool(row[7])) for row in found], [plain(row) for row in rows])
        file.execute("insert into credential values (3, x'07', x'01', -8, zeroblob(32), null, 0, 0, 0)")
    file.close()
    tests.ends("a place that is left out, as by a deletion", tests.file("moved.db"), 0, "")
    with sqlite3.connect(tests.file("moved.db")) as file:
        file.execute("insert into credential values (5, x'08', x'01', -8, zeroblob(31), null, 0, 0, 0)")
    file.close()
    tests.ends("a key of 31 bytes", tests.file("moved.db"), 4, "a row is not one that a site has written")


def main():
    # What is run in the background or by nohup is handed on that these are ignored.
    for name in (signal.SIGINT, signal.SIGHUP):
        signal.signal(name, signal.SIG_DFL)
    tests = Tests(str(Path(sys.argv[1]).resolve()))
    for part in (start, visits, settings, other_hosts, at_once, killed, failing_disk, wrong_files, moved, cut_off,
                 lone_logs, no_input, clocks, parties):
        part(tests)
    return tests.verdict()


if __name__ == "__main__":
    sys.exit(main())
