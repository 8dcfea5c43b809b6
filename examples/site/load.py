"""The program of `load`: visitors whose devices are played by `cryptography`, as in the tests of python/, in their own processes."""
import http.client
import json
import multiprocessing
import random
import sys
import threading
import time
from pathlib import Path
from statistics import median, quantiles

HERE = Path(__file__).resolve().parent
sys.path.insert(0, str(HERE.parents[1] / "python" / "tests"))
import garvoeng  # noqa: E402
import psycopg2  # noqa: E402
from app import site  # noqa: E402
from device import Device  # noqa: E402
from garvoeng.forms import from_text  # noqa: E402
from servers import ended, started  # noqa: E402

ORIGIN = "http://localhost:8080"
PORTS = [8771, 8772, 8773, 8774]
VISITORS = 64
CLIENTS = 4
"""The number of processes for the visitors."""


class Visitor:
    """A visitor with one device and one cookie; `counts` are the counters of the sign-ins that were answered as accepted. The devices of
    every other visitor have no counter: they sign in with 0, so only the session shows a replay."""

    def __init__(self, number):
        self.name, self.cookie, self.counts = f"visitor {number}", None, []
        self.device = Device(rp_id="localhost", origin=ORIGIN, credential=b"credential %d" % number, counts=number % 2 == 0)
        self.user = None

    def post(self, port, path, body, cookie=None):
        connection = http.client.HTTPConnection("localhost", port, timeout=30)
        headers = {"Content-Type": "application/json"}
        if cookie or self.cookie:
            headers["Cookie"] = cookie or self.cookie
        connection.request("POST", path, json.dumps(body), headers)
        answer = connection.getresponse()
        said = json.loads(answer.read())
        given = answer.headers.get("Set-Cookie")
        connection.close()
        return answer.status, said, given.split(";")[0] if given else None

    def registers(self, port):
        _, options, self.cookie = self.post(port, "/register/begin", {"name": self.name})
        status, _, cookie = self.post(port, "/register/finish", self.device.register(options))
        self.user, self.cookie = from_text(options["user"]["id"], "user"), cookie
        assert status == 200

    def response(self, port):
        """A session's cookie, and the response to it."""
        _, options, cookie = self.post(port, "/sign-in/begin", {"name": self.name})
        return cookie, self.device.sign_in(options, self.user)

    def signs_in(self, ports, told, is_copied):
        """One sign-in, whose response is sent three times at once. Returns how often it was accepted, whether one of the three was not
        answered, and the times of the accepted ones. With a copied key, two responses in two sessions over one counter, each three
        times."""
        try:
            responses = [self.response(random.choice(ports))]
            if is_copied:
                self.device.count -= 1
                responses.append(self.response(random.choice(ports)))
        except (OSError, http.client.HTTPException, ValueError):
            return
        answers = []

        def send(cookie, response):
            begun = time.perf_counter()
            try:
                status, said, _ = self.post(random.choice(ports), "/sign-in/finish", response, cookie)
            except (OSError, http.client.HTTPException, ValueError):
                status, said = 0, {}
            answers.append((status, said, time.perf_counter() - begun))

        threads = [threading.Thread(target=send, args=response) for response in responses * 3]
        for thread in threads:
            thread.start()
        for thread in threads:
            thread.join()
        accepted = [answer for answer in answers if answer[0] == 200]
        lost = any(answer[0] == 0 for answer in answers)
        told.append((len(accepted), lost, [answer[2] for answer in accepted]))
        self.counts += [answer[1]["count"] for answer in accepted]


def visits(visitors, ports, until, is_copied):
    """The answers that these visitors got, and what they keep, each in a thread until this time."""
    told = []

    def visit(visitor):
        while time.time() < until:
            visitor.signs_in(ports, told, is_copied)

    threads = [threading.Thread(target=visit, args=(visitor,)) for visitor in visitors]
    for thread in threads:
        thread.start()
    for thread in threads:
        thread.join()
    return told, [(visitor.device.count, visitor.counts) for visitor in visitors]


def client(visitors, ports, until, is_copied, answers):
    answers.send(visits(visitors, ports, until, is_copied))
    answers.close()


def phase(visitors, ports, seconds, is_copied, kill):
    """The answers to visitors who sign in for this many seconds, with `kill` called each second."""
    until = time.time() + seconds
    clients = []
    for first in range(CLIENTS):
        ours, theirs = multiprocessing.Pipe(False)
        process = multiprocessing.Process(target=client, args=(visitors[first::CLIENTS], ports, until, is_copied, theirs))
        process.start()
        theirs.close()
        clients.append((process, ours))
    while kill and time.time() < until - 2:
        time.sleep(1)
        kill()
    told = []
    for first, (process, ours) in enumerate(clients):
        said, kept = ours.recv()
        process.join()
        told += said
        for visitor, (count, counts) in zip(visitors[first::CLIENTS], kept):
            visitor.device.count, visitor.counts = count, counts
    return told


def request_times(address):
    """The milliseconds of a request that finishes a sign-in, in this process and one at a time, and of its verdict."""
    verdicts, requests = [], []
    judge = garvoeng.Server.authenticate_complete

    def timed(self, *values, **named):
        begun = time.perf_counter()
        try:
            return judge(self, *values, **named)
        finally:
            verdicts.append(time.perf_counter() - begun)

    garvoeng.Server.authenticate_complete = timed
    client = site(address, ORIGIN, b"secret").test_client()
    device = Device(rp_id="localhost", origin=ORIGIN, credential=b"one at a time")
    options = client.post("/register/begin", json={"name": "one at a time"}).json
    client.post("/register/finish", json=device.register(options))
    for _ in range(100):
        response = device.sign_in(client.post("/sign-in/begin", json={"name": "one at a time"}).json,
                                  from_text(options["user"]["id"], "user"))
        begun = time.perf_counter()
        assert client.post("/sign-in/finish", json=response).status_code == 200
        requests.append(time.perf_counter() - begun)
    garvoeng.Server.authenticate_complete = judge
    return median(requests) * 1000, median(verdicts) * 1000


def stored(address, visitors):
    """The counter in each visitor's row."""
    connection = psycopg2.connect(address)
    cursor = connection.cursor()
    for visitor in visitors:
        cursor.execute("select sign_count from garvoeng_credential where id = %s", (visitor.device.id,))
        yield cursor.fetchone()[0]


def main(address, seconds, file):
    sites = {port: started(address, port, ORIGIN) for port in PORTS}
    visitors = [Visitor(number) for number in range(VISITORS)]
    for visitor in visitors:
        visitor.registers(PORTS[0])
    counting = [visitor for visitor in visitors if visitor.device.counts]

    def kill():
        port = random.choice(PORTS)
        ended(sites[port])
        sites[port] = started(address, port, ORIGIN)

    rows, is_good = [], True
    for who, ports, is_copied, kills in ((visitors, PORTS[:1], False, None), (visitors, PORTS, False, None),
                                         (visitors, PORTS, False, kill), (counting, PORTS, True, None)):
        told = phase(who, ports, seconds, is_copied, kills)
        times = sorted(one for _, _, accepted in told for one in accepted)
        parts = quantiles(times, n=100)
        twice = sum(count > 1 for count, _, _ in told)
        none = sum(count == 0 and not lost for count, lost, _ in told)
        what = "pairs of responses over one counter" if is_copied else "responses"
        print(f"{len(ports)} processes{', killed each second' if kills else ''}: {len(told)} {what}, each sent three times; "
              f"{twice} accepted twice, {none} not at all though each was answered", flush=True)
        rows.append((len(ports), bool(kills), len(told), len(times), len(times) / seconds, parts[49], parts[98]))
        is_good = is_good and twice == 0 and (kills or none == 0)
    counters = list(stored(address, counting))
    lower = sum(any(later <= earlier for earlier, later in zip(visitor.counts, visitor.counts[1:])) for visitor in counting)
    lost = sum(counter < max(visitor.counts, default=0) for visitor, counter in zip(counting, counters))
    print(f"of {len(counting)} visitors with a counter {lower} whose counter fell, {lost} whose accepted sign-in was lost")
    print("| Processes | Killed | Responses | Accepted | Sign-ins a second | p50 | p99 |")
    for line in rows[:3]:
        print(f"| {line[0]} | {'yes' if line[1] else 'no'} | {line[2]} | {line[3]} | {line[4]:.0f} | {line[5] * 1000:.0f} ms | {line[6] * 1000:.0f} ms |")
    for process in sites.values():
        ended(process)
    for name, where in (("PostgreSQL", address), ("SQLite", file)):
        request, verdict = request_times(where)
        print(f"a request that finishes a sign-in over {name}, one at a time: {request:.2f} ms, of which the verdict {verdict:.2f} ms")
    is_good = is_good and lower == 0 and lost == 0
    print(f"{int(is_good)} passed, {int(not is_good)} failed")
    sys.exit(not is_good)


if __name__ == "__main__":
    main(sys.argv[1], float(sys.argv[2]), sys.argv[3])
