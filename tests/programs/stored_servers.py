#!/usr/bin/python3
"""What visitors, hosts and a broken program do to `garvoeng.StoredServer`, and hostile responses over lines:
tests/programs/stored_servers.py PROGRAM. The last line is 'N passed, M failed'."""
import json
import logging
import os
import signal
import sys
import threading
import time
from pathlib import Path

import site_hosts
from device import Device, changed
from garvoeng import ES256, BadInput, Refused, StoredServer, StoreFailed
from hostile import changes, nested
from site_hosts import lives, raised, registered
from site_lines import ORIGIN, PARTY, RP_ID, USER, Host

NO_ANSWER = "import sys, time; sys.stdin.readline(); time.sleep(600)"
ANSWERS = {
    "no JSON": "print('{', flush=True)", "no id": "print('{}', flush=True)", "another id": "print('{\"id\":7}', flush=True)",
    "a list": "print('[]', flush=True)", "a number": "print('1', flush=True)", "half a line": "sys.stdout.write('{\"id\":1}')",
    "two answers": "print('{\"id\":1,\"rows\":[]}\\n{\"id\":2,\"rows\":[]}', flush=True)", "nothing": "pass",
    "bytes that are no text": "sys.stdout.buffer.write(b'\\xff\\xfe\\n')",
}


class Tests(site_hosts.Tests):
    def script(self, name, body):
        """A program that does this in place of the proved one."""
        path = Path(self.file(name))
        path.write_text(f"#!{sys.executable}\nimport sys\n{body}\n")
        path.chmod(0o755)
        return str(path)

    def broken(self, name, body, timeout=30.0):
        return StoredServer(self.script(name, body), self.file("none.db"), RP_ID, [ORIGIN], timeout=timeout)


def hostile_values(tests):
    """Each is a named refusal, by one process, and none is accepted; then what the device made is."""
    device, tried, wrong = Device(), 0, []
    with tests.server("hostile.db") as server:
        options, session = server.register_begin(USER, "name")
        made = device.register(options)
        first = server._process.process.pid
        asked, other = server.authenticate_begin(user=USER)
        for call, number, good in ((server.register_complete, session, made),
                                   (server.authenticate_complete, other, device.sign_in(asked, user=USER))):
            for what, hostile in changes(good):
                tried += 1
                error = raised(call, number, hostile)
                if type(error) is not tuple or error[0] not in (Refused, BadInput):
                    wrong.append((what, error))
            call(number, good)
        tests.check("none of them is accepted, each is refused by name", wrong, [])
        tests.check("many were tried", tried >= 2_000)
        tests.check("by one process", server._process.process.pid, first)


def hostile_lines(tests):
    """The same over lines: an error or a refusal with the line's id, where the line is JSON."""
    device, wrong = Device(), []
    host = Host(tests.program, tests.file("lines.db"), *PARTY)
    begun = host.ask("begin_registration", user="MQ", user_name="name")
    made = device.register(begun["options"])
    asked = host.ask("begin_sign_in", user="MQ")
    for act, session, good in (("finish_registration", begun["session"], made),
                               ("finish_sign_in", asked["session"], device.sign_in(asked["options"], user=b"1"))):
        for what, hostile in changes(good):
            line = {"id": 9, "act": act, "session": session, "response": hostile}
            answer = host.raw(json.dumps(line).encode())
            if "verify" in answer:
                answer = host.raw(json.dumps({**line, "verified": False}).encode())
            if set(answer) not in ({"id", "error"}, {"id", "refused"}):
                wrong.append((act, what, answer))
        answer = host.finish(act, session, good)
        tests.check(f"{act} of what the device made", list(answer), ["accepted"])
    tests.check("hostile values over lines", wrong, [])
    tests.check("and a clean end", host.end()[0], 0)


def what_no_line_can_be(tests):
    """A call that never becomes a line shifts no other's answer."""
    with tests.server("shift.db") as server:
        registered(server, Device())
        process = server._running()
        for members, error in (({"user": nested(100_000)}, RecursionError), ({"user": object()}, TypeError),
                               ({"user": float("nan")}, ValueError), ({"user": "A" * 65_536}, BadInput)):
            tests.check(f"{error.__name__}", raised(process.ask, "rows", members, 5.0)[0], error)
            tests.check(f"an answer after a {error.__name__}", len(server.rows(USER)), 1)
        tests.check("nothing waits", (list(process.asked), process.waiting), ([], {}))


def beside_attackers(tests, attackers=6, visitors=4, times=8):
    """Honest visitors beside hostile ones: each gets its own answer."""
    wrong, ends = [], threading.Event()

    def attack(server):
        session = server.authenticate_begin()[1]
        while not ends.is_set():
            for depth in (126, 700, 972, 990):
                response = {"id": "AA", "rawId": "AA", "type": "public-key", "clientExtensionResults": nested(depth, dict),
                            "response": {"clientDataJSON": "AA", "authenticatorData": "AA", "signature": "AA", "userHandle": "AA",
                                         "more": nested(depth)}}
                error = raised(server.authenticate_complete, session, response)
                if error[0] not in (Refused, BadInput):
                    wrong.append(error)

    with tests.server("attacked.db") as server:
        hostile = [threading.Thread(target=attack, args=(server,)) for _ in range(attackers)]
        honest = [threading.Thread(target=lives, args=(server, number, times, wrong, ES256)) for number in range(visitors)]
        for thread in hostile + honest:
            thread.start()
        for thread in honest:
            thread.join()
        ends.set()
        for thread in hostile:
            thread.join()
        tests.check("beside hostile visitors", wrong, [])


def broken_programs(tests):
    """A program that does not answer, or answers something else: a failure in time, and never another's answer."""
    for what, body in {**ANSWERS, "no answer": NO_ANSWER}.items():
        server = tests.broken("broken", body, 1.0) if body == NO_ANSWER else tests.broken("broken", f"sys.stdin.readline()\n{body}")
        began = time.monotonic()
        found = raised(server.rows)
        wanted = [] if what == "two answers" else StoreFailed
        tests.check(f"a program that answers {what}", found if found == [] else found[0], wanted)
        tests.check(f"in time, {what}", time.monotonic() - began < 25)
        raised(server.close)
    many = tests.broken("silent", NO_ANSWER, 1.0)
    found = []
    threads = [threading.Thread(target=lambda: found.append(raised(many.rows)[0])) for _ in range(20)]
    for thread in threads:
        thread.start()
    for thread in threads:
        thread.join(30)
    tests.check("no thread waits for ever", found, [StoreFailed] * 20)
    raised(many.close)


def stopped(tests):
    """A program that hangs is ended in time, and the next call goes on with the file."""
    server, device = tests.server("stopped.db", timeout=4.0), Device()
    registered(server, device)
    os.kill(server._process.process.pid, signal.SIGSTOP)
    tests.check("a program that hangs", raised(server.rows), (StoreFailed, "the program did not answer in 4 seconds"))
    tests.check("the next call", [row.id for row in server.rows()], [device.id])
    os.kill(server._process.process.pid, signal.SIGSTOP)
    tests.check("a close of one that hangs", raised(server.close), (StoreFailed, "the program could not close its file"))


def causes(tests):
    """What the program told stands in the error, in words, and the error survives a copy between processes."""
    with tests.server("cause.db") as server:
        server.rows()
        with tests.server("cause.db") as other:
            found = raised(other.rows)
        tests.check("a second process", found[0] is StoreFailed and "the file is in use" in found[1], True)
    absent = raised(tests.server("absent.db", existing=True).rows)
    tests.check("a file that has to be there", absent[0] is StoreFailed and "there is no file at this path" in absent[1], True)
    tests.check("which is not made", Path(tests.file("absent.db")).exists(), False)
    none = raised(StoredServer("/no/such/program", "x", RP_ID, [ORIGIN]).rows)
    tests.check("a program that isn't there", none[0] is StoreFailed and "can't be started" in none[1], True)
    os.chdir(tests.folder.name)
    with StoredServer(tests.program, "-dash.db", RP_ID, [ORIGIN], "-a name") as server:
        tests.check("a file and a name that begin with a dash", server.rows(), [])
        tests.check("the name", server.register_begin(USER, "name")[0]["rp"]["name"], "-a name")
    for wary in (False, True):
        with tests.server("wary.db", wary=wary) as server:
            tests.check(f"wary={wary}", (server.rows(), "--wary" in server._process.process.args), ([], wary))
    heard, handler = [], logging.Handler()
    handler.emit = lambda record: heard.append(record.getMessage())
    logging.getLogger("garvoeng").addHandler(handler)
    for log, wanted in ((False, 0), (True, 1), ("all", 1)):
        heard.clear()
        with tests.server(f"log{log}.db", log=log) as server:
            raised(server.authenticate_complete, "0", Device().sign_in({"challenge": "AA"}, user=USER))
        tests.check(f"refusals with log={log!r}", sum("sign-in refused W1 " in text for text in heard), wanted)
    logging.getLogger("garvoeng").removeHandler(handler)
    with tests.server("short.db", lifetime=1) as server:
        old = server.authenticate_begin()[1]
        time.sleep(2.5)
        young = server.authenticate_begin()[1]
        tests.check("a session ends by itself", [server.abandon(session) for session in (old, young)], [False, True])


def logs(tests):
    """With `log` each refusal is told to `logging`."""
    told = []

    class Keep(logging.Handler):
        def emit(self, record):
            told.append(record.getMessage())

    logger = logging.getLogger("garvoeng")
    keep = Keep()
    logger.addHandler(keep)
    logger.propagate = False
    with tests.server("log.db", log=True) as server:
        found = raised(server.authenticate_complete, "5", Device().sign_in({"challenge": "AA"}))
    tests.check("refused and told", found == (Refused, "W1") and any("W1" in line for line in told), True)
    told.clear()
    with tests.server("log_all.db", log="all") as server:
        device = Device()
        registered(server, device)
        options, session = server.authenticate_begin(user=USER)
        response = device.sign_in(options)
        wrong = changed(response, "signature", lambda data: data[:-1] + bytes([data[-1] ^ 1]))
        tests.check("a wrong signature", raised(server.authenticate_complete, session, wrong), (Refused, "W14"))
        server.authenticate_complete(session, response)
    tests.check("all is told", [line.split(" ", 5)[5].split(" credential ")[0] for line in told],
                ["registration accepted", "sign-in refused W14", "sign-in accepted"])
    tests.check("another log", raised(tests.server, "none.db", log="some")[0], BadInput)
    logger.removeHandler(keep)
    logger.propagate = True


def main():
    tests = Tests(str(Path(sys.argv[1]).resolve()))
    logging.getLogger("garvoeng").addHandler(logging.NullHandler())
    for part in (hostile_values, what_no_line_can_be, beside_attackers, broken_programs, stopped, causes, logs, hostile_lines):
        part(tests)
    return tests.verdict()


if __name__ == "__main__":
    sys.exit(main())
