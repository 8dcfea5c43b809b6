#!/usr/bin/python3
"""Opens that are refused, of the program of crates/site_main: tests/programs/site_opens.py PROGRAM. Damaged files, each bit of the heads of
a file and of a log among them, every 7th byte of a file with sums, older copies, files of another kind, other sites' files, and
files that are made again, logs beside other files, and files of versions 1 to 3: what is refused keeps its bytes, the file's and the
log's, and what is opened has the site that it had. Then three processes make one file at once, 150
times: one gets it. The last line is 'N passed, M failed'."""
import json
import random
import sqlite3
import subprocess
import sys
import tempfile
import time
from collections import Counter
from itertools import count
from pathlib import Path

from site_lines import PARTY, Device, EDDSA, Host, Tests, to_text

HEAD, MANY, BYTES = 100, 600, 7
LINES = b'{"id":1,"act":"rows"}\n'
OTHER_LOG = "the log (FILE-wal) is another file's, or of another time\n"
TEXTS = (Path(__file__).resolve().parents[1] / "crates" / "stored_tests" / "versions.rt.txt").read_text()
OTHER = ["--rp-id", "other.example", "--origin", "https://other.example"]


def both(path):
    """The bytes of a file and of its log, None of one that is not there."""
    return [one.read_bytes() if one.exists() else None for one in (path, Path(f"{path}-wal"))]


def put(path, pair):
    for one, content in zip((path, Path(f"{path}-wal")), pair):
        one.unlink(missing_ok=True)
        if content is not None:
            one.write_bytes(content)


def flipped(pair, which, bit):
    content = bytearray(pair[which])
    content[bit // 8] ^= 1 << bit % 8
    return [bytes(content) if place == which else one for place, one in enumerate(pair)]


class Opens(Tests):
    numbers = count()

    def __init__(self, program):
        super().__init__(program)
        memory = Path("/dev/shm")
        self.folder = tempfile.TemporaryDirectory(dir=memory if memory.is_dir() else None)
        self.path = self.file("open.db")
        self.killed, self.closed, self.rows = self.sites("site.db")
        _, self.plain, _ = self.sites("plain.db", "--no-sums")

    def register(self, host, device):
        begun = host.ask("begin_registration", user=to_text(b"user"), user_name="name")
        host.ask("finish_registration", session=begun["session"], response=device.register(begun["options"]))

    def sites(self, name, *words):
        """The files of a site that was killed, whose log has been copied once, and of one that was closed, and the rows of both:
        so many that the file is not read into memory."""
        path = self.file(name)
        host = Host(self.program, path, *PARTY, *words)
        for number in range(MANY):
            self.register(host, Device(EDDSA, credential=b"earlier device %d" % number))
        self.check("the first end", host.end()[0], 0)
        host = Host(self.program, path, *PARTY)
        for number in range(20):
            self.register(host, Device(EDDSA, credential=b"device %d" % number))
        rows = host.ask("rows")["rows"]
        host.process.kill()
        host.process.wait()
        killed = both(path)
        self.check("the end", Host(self.program, path, *PARTY).end()[0], 0)
        self.check("the file is large", len(killed[0]) > 65_536)
        return killed, both(path), rows

    def open(self, pair, *words, party=PARTY):
        """Opens files: the rows, or None and why they were refused."""
        put(self.path, pair)
        run = subprocess.run([self.program, str(self.path), *party, *words], input=LINES, capture_output=True)
        if run.returncode == 0:
            return json.loads(run.stdout)["rows"], ""
        return None, run.stderr.decode()

    def is_kept(self, what, pair, *words, party=PARTY):
        """Files are refused, and keep their bytes: why."""
        rows, why = self.open(pair, *words, party=party)
        self.check(f"{what}: refused", rows, None)
        self.check(f"{what}: the bytes, {why}", both(self.path) == list(pair))
        return why

    def bits(self):
        """Each bit of the head of the file and of the log is turned."""
        for name, pair in (("killed", self.killed), ("closed", self.closed)):
            for which, part in enumerate(("file", "log")):
                ends = Counter()
                whole = 8 * min(HEAD, len(pair[which]))
                # Of a file that is killed, and of the log's frames, not each.
                bits = range(whole) if name == "closed" else range(0, whole, 7) if part == "file" else [*range(256), *range(256, whole, 7)]
                for bit in bits:
                    changed = flipped(pair, which, bit)
                    rows, why = self.open(changed, "--existing")
                    if rows is None:
                        self.check(f"bit {bit} of the {part}, {name}: {why}", both(self.path) == changed)
                        ends[why.strip()] += 1
                    else:
                        ends["the same rows" if rows == self.rows else "older rows"] += 1
                        # What SQLite passes over in the log's frames is an older site: no flip of the header is one.
                        self.check(f"bit {bit} of the {part}, {name}", rows == self.rows or (which == 1 and 256 <= bit))
                print(f"{len(bits)} bits of the first {HEAD} bytes of the {part}, {name}: {dict(ends)}")

    def sums(self):
        """Each byte of a small file with sums is changed: none opens, or it is the same site. What sqlite3 writes spoils the sums."""
        path, ends = self.file("small.db"), Counter()
        host = Host(self.program, path, *PARTY)
        for number in range(3):
            self.register(host, Device(EDDSA, credential=b"small %d" % number))
        rows = host.ask("rows")["rows"]
        self.check("the small end", host.end()[0], 0)
        file, log = both(path)
        rng = random.Random(8)
        for at in range(0, len(file), BYTES):
            changed = bytearray(file)
            changed[at] ^= rng.randrange(1, 256)
            pair = [bytes(changed), None if at % 2 else log]
            found, why = self.open(pair, "--existing")
            self.check(f"byte {at}: {why}", found is None and both(self.path) == pair)
            ends[why.strip()] += 1
        print(f"{len(range(0, len(file), BYTES))} bytes of a small file: {dict(ends)}")
        self.check("as it was", self.open((file, log), "--existing")[0], rows)
        put(self.path, (file, None))
        written = sqlite3.connect(self.path)
        self.check("sqlite3 reads it", written.execute("select count(*) from credential").fetchone(), (3,))
        written.execute("update credential set sign_count = 7 where place = 2")
        written.commit()
        written.close()
        self.check("sqlite3 spoils it", self.is_kept("written by sqlite3", both(self.path), "--existing"), "the file is no sound SQLite file\n")

    def copies(self):
        """A copy from before the last commit is refused where a session that was begun after it is known."""
        path = self.file("copied.db")
        host, copies = Host(self.program, path, *PARTY), []
        for number in range(4):
            self.register(host, Device(EDDSA, credential=b"copied %d" % number))
            told = host.ask("begin_sign_in")["number"]
            self.check(f"copy {number}", host.end()[0], 0)
            copies.append((told, both(path)))
            host = Host(self.program, path, *PARTY, "--at-least", str(told))
        self.check("the last end", host.end()[0], 0)
        for mine, (_, pair) in enumerate(copies):
            for known, (told, _) in enumerate(copies):
                if known <= mine:
                    self.check(f"copy {mine} at {told}", len(self.open(pair, "--at-least", str(told))[0] or []), mine + 1)
                else:
                    self.check(f"copy {mine} at {told}", self.is_kept(f"copy {mine} at {told}", pair, "--at-least", str(told)),
                               "the file is an older copy than is known\n")
        put(self.path, (None, None))
        self.check("none is made", self.open((None, None), "--at-least", "1"), (None, "there is no file at this path\n"))
        self.check("an empty one neither", self.is_kept("an empty file", (b"", None), "--at-least", "1"), "the file has no site\n")

    def known(self):
        """A copy that lacks what was told is refused by what was known then, and the file itself never, whichever answer told it."""
        path, device = self.file("known.db"), Device(EDDSA, credential=b"known")
        host, copies = Host(self.program, path, *PARTY), []

        def registered(host):
            self.register(host, device)

        def begun(host):
            for _ in range(1001 - host.ask("status")["status"]["next_session"] % 1000):
                host.ask("begin_sign_in")

        acts = (registered, begun, lambda host: host.ask("retire", credential=to_text(device.id)), lambda host: host.ask("status"),
                lambda host: host.ask("delete", credential=to_text(device.id)), begun)
        for act in acts:
            act(host)
            copy = self.file(f"known-{len(copies)}.db")
            self.check("copied", host.ask("backup", path=str(copy)), {"backup": True})
            copies.append((host.known, both(copy)))
        self.check("the end", host.end()[0], 0)
        for mine, (least, pair) in enumerate(copies):
            for then, (known, _) in enumerate(copies):
                if known <= least:
                    self.check(f"copy {mine} by {then}", self.open(pair, "--at-least", str(known))[0] is not None)
                else:
                    self.check(f"copy {mine} by {then}", self.is_kept(f"copy {mine} by {then}", pair, "--at-least", str(known)),
                               "the file is an older copy than is known\n")
        self.check("each change is known", copies[0][0] < copies[2][0] < copies[4][0])
        whole = both(path)
        for known in (copies[-1][0], host.known):
            self.check("the file itself", self.open(whole, "--at-least", str(known))[0] is not None)

    def others(self):
        """Files of another kind beside the log, and others' sites."""
        rng, (file, log) = random.Random(5), self.killed
        text = b"a text that is no file of SQLite\n" * 300
        for what, pair in (("a text beside a log", (text, log)), ("a short text beside a log", (b"text", log)),
                           ("random bytes beside a log", (rng.randbytes(len(file)), log)), ("an empty file beside a log", (b"", log)),
                           ("a text", (text, None)), ("an empty file", (b"", None)), ("a text with a text as its log", (text, text)),
                           ("a site with a text as its log", (file, text)), ("half of a page", (file[:2048], None)),
                           ("a file without its last pages", (self.closed[0][:8192], None)),
                           ("a file without its last pages, and its log", (self.closed[0][:8192], self.closed[1])),
                           ("a file with zeros", (bytes(len(file)), None)),
                           ("a file with a page of zeros", (self.closed[0][:4096] + bytes(4096) + self.closed[0][8192:], None))):
            self.is_kept(what, pair, "--existing")
            if file not in pair and b"" not in pair:
                self.is_kept(f"{what}, made", pair, "--new")
        for name, pair in (("killed", self.killed), ("closed", self.closed), ("closed, without its log", (self.closed[0], None))):
            self.check(f"{name}: another rp id", self.is_kept(f"{name}, of another", pair, party=OTHER),
                       "the file is of another site or version\n")
            self.check(f"{name}: made", self.is_kept(f"{name}, made", pair, "--new"), "there is a file at this path\n")
            self.check(f"{name}: opened", self.open(pair)[0], self.rows)

    def edited(self):
        """Tables and rows that no site writes, in the file and in its log."""
        for text, why in (("create table note (id integer primary key)", "the file has other tables than a site's\n"),
                          ("drop index credential_by_user", "the file has other tables than a site's\n"),
                          ("update site set version = 5", "the file is of a later version\n"),
                          ("update site set version = 2", "the file is of another site or version\n"),
                          ("update mark set sum = zeroblob(16)", "a row is not one that a site has written\n"),
                          ("update site set next_session = 0", "the file has no site\n"),
                          ("delete from site", "the file has no site\n"),
                          ("update credential set sign_count = -1 where place = 3", "a row is not one that a site has written\n"),
                          ("update credential set x = x'01' where place = 20", "a row is not one that a site has written\n")):
            for is_closed in (True, False):
                put(self.path, self.plain)
                file = sqlite3.connect(self.path)
                file.execute(text)
                file.commit()
                pair = both(self.path)
                file.close()
                if is_closed:
                    pair = both(self.path)
                self.check(f"{text}, closed {is_closed}", self.is_kept(text, pair), why)

    def torn(self):
        """A file whose first page is damaged, while its log has it whole."""
        put(self.path, self.closed)
        host = Host(self.program, self.path, *PARTY)
        for number in range(60):
            self.register(host, Device(EDDSA, credential=b"more %d" % number))
        rows = host.ask("rows")["rows"]
        host.process.kill()
        host.process.wait()
        file, log = both(self.path)
        pages = {int.from_bytes(log[at:at + 4], "big") for at in range(32, len(log) - 4119, 4120)}
        rng = random.Random(6)
        for page in sorted(pages & set(range(1, len(file) // 4096 + 1))):
            for start in range(0, 4096, 512):
                at = 4096 * (page - 1) + start
                changed = file[:at] + rng.randbytes(512) + file[at + 512:]
                self.check(f"page {page} damaged at {start}, whole in the log", self.open((changed, log), "--existing")[0] == rows)
        self.check("the log has the first page", 1 in pages)

    def acts(self, host, count):
        """Registrations, each of another credential."""
        for _ in range(count):
            self.register(host, Device(EDDSA, credential=b"logged %d" % next(self.numbers)))

    def killed_at(self, path, count, *words):
        """The files of a site that did so much and was killed, and its rows."""
        host = Host(self.program, path, *PARTY, *words)
        self.acts(host, count)
        rows = host.ask("rows")["rows"]
        host.process.kill()
        host.process.wait()
        return both(path), rows

    def logs(self):
        """A log beside its own file, an older or a newer one, a backup that was made while it was written, and another site's."""
        path, copy = self.file("logged.db"), self.file("logged copy.db")
        for words in ((), ("--no-sums",)):
            put(path, (None, None))
            made, _ = self.killed_at(path, 3, *words)
            self.check("the end", Host(self.program, path, *PARTY).end()[0], 0)
            older = both(path)
            host = Host(self.program, path, *PARTY)
            self.acts(host, 2)
            copy.unlink(missing_ok=True)
            self.check("a backup", host.ask("backup", path=str(copy))["backup"], True)
            early = copy.read_bytes()
            self.acts(host, 2)
            copy.unlink(missing_ok=True)
            self.check("a second backup", host.ask("backup", path=str(copy))["backup"], True)
            self.acts(host, 1)
            first_rows = host.ask("rows")["rows"]
            host.process.kill()
            host.process.wait()
            first = both(path)
            # The backups are of this log's time, or its file's: it goes on from them.
            for what, file in (("its own file", first[0]), ("the file before it", older[0]), ("an early backup", early),
                               ("a later backup", copy.read_bytes())):
                self.check(f"{what}, {words}", self.open((file, first[1]), "--existing")[0], first_rows)
            put(path, first)
            self.check("the second end", Host(self.program, path, *PARTY).end()[0], 0)
            newer = both(path)
            second, rows = self.killed_at(path, 2)
            self.check(f"the newer log, {words}", self.open(second, "--existing")[0], rows)
            other, _ = self.killed_at(self.file(f"another{len(words)}.db"), 3, *words)
            host = Host(self.program, self.file(f"another{len(words)}.db"), *PARTY)
            self.check("another end", host.end()[0], 0)
            closed = both(self.file(f"another{len(words)}.db"))
            for what, file, log in (("an older file", older[0], second[1]), ("an early backup beside a newer log", early, second[1]),
                                    ("a backup beside a newer log", copy.read_bytes(), second[1]),
                                    ("a newer file", second[0], made[1]), ("another site's log", newer[0], other[1]), ("another site's file", closed[0], second[1])):
                for way in ("--existing", "--new"):
                    self.check(f"{what}, {way}, {words}", self.is_kept(what, (file, log), way), OTHER_LOG)
            self.copied(second, rows, words)

    def copied(self, pair, rows, words):
        """A log of which some pages were copied into the file, and of the page of the mark some bytes, or others."""
        file, log = pair
        frames = {int.from_bytes(log[at:at + 4], "big"): log[at + 24:at + 4120] for at in range(32, len(log) - 4119, 4120)}
        frames = {page: content for page, content in frames.items() if 1 <= page <= len(file) // 4096}
        marked = [page for page, content in frames.items() if content[0] == 13 and b"\x25\x01\x05\x00\x1c\x1c\x2c" in content]
        self.check(f"one page has marks, {words}", len(marked), 1)
        rng = random.Random(9)
        for number in range(40):
            changed = bytearray(file)
            for page in rng.sample(sorted(frames), rng.randrange(len(frames) + 1)) if number else sorted(frames):
                changed[4096 * (page - 1):4096 * page] = frames[page]
            at, kind = 4096 * (marked[0] - 1), number % 4
            for place in range(at, at + 4096, 1 if kind == 1 else 512):
                size = 1 if kind == 1 else 512
                if kind in (1, 2) and rng.random() < 0.5:
                    changed[place:place + size] = file[place:place + size]
                elif kind in (1, 2):
                    changed[place:place + size] = frames[marked[0]][place - at:place - at + size]
                elif kind == 3 and rng.random() < 0.5:
                    changed[place:place + size] = rng.randbytes(size)
            self.check(f"copied {number}, {words}", self.open((bytes(changed), log), "--existing")[0], rows)

    def versions(self):
        """Files of versions 1 to 3 are upgraded; the rows and the next number stay, and there is a key."""
        path = self.file("version.db")

        def text(name):
            return TEXTS.split(f"const {name}: &str = \"")[1].split("\";")[0]
        for version, texts in ((1, ["TABLES"]), (2, ["TABLES", "SECOND"]), (3, ["TABLES", "SECOND", "THIRD"])):
            put(path, (None, None))
            file = sqlite3.connect(path)
            for name in texts:
                file.executescript(text(name))
            file.execute("insert into site values (1, ?, ?, 7)", (version, PARTY[1]))
            devices = [Device(EDDSA, credential=b"version %d %d" % (version, number)) for number in range(300)]
            file.executemany("insert into credential values (?, ?, ?, -8, ?, null, 0, null, 0)",
                             [(place, device.id, b"user", device.x) for place, device in enumerate(devices, 1)])
            file.commit()
            file.close()
            pair = both(path)
            self.check(f"version {version}: another rp id", self.is_kept(f"version {version}", pair, party=OTHER),
                       "the file is of another site or version\n")
            self.check(f"version {version}: made", self.is_kept(f"version {version}, made", pair, "--new"), "there is a file at this path\n")
            put(path, pair)
            host = Host(self.program, path, *PARTY)
            self.check(f"version {version}: the number", host.ask("begin_sign_in")["number"], 7)
            self.check(f"version {version}: the rows", [row["credential"] for row in host.ask("rows")["rows"]],
                       [to_text(device.id) for device in devices])
            host.process.kill()
            host.process.wait()
            self.check(f"version {version}: killed", len(self.open(both(path), "--existing")[0] or []), 300)
            # The upgrade is in the log alone, and the file of before it may stand beside it.
            self.check(f"version {version}: the file of before", len(self.open((pair[0], both(path)[1]), "--existing")[0] or []), 300)
            self.check(f"version {version}: the end", Host(self.program, path, *PARTY).end()[0], 0)
            file = sqlite3.connect(path)
            self.check(f"version {version}: upgraded", file.execute("select version, length(key) from site, seal_key").fetchone(), (4, 32))
            self.check(f"version {version}: sound", file.execute("pragma integrity_check").fetchone(), ("ok",))
            file.close()

    def races(self, count):
        """Three processes make one file at once: one has it, and the others are told that it is in use."""
        ends, rng = Counter(), random.Random(7)
        for number in range(count):
            path = self.file(f"race{number}.db")
            hosts = []
            for _ in range(3):
                hosts.append(Host(self.program, path, *PARTY))
                time.sleep(rng.choice((0, 0, rng.uniform(0, 0.004))))
            answers = []
            for host in hosts:
                try:
                    answers.append(host.ask("begin_sign_in")["number"])
                except (BrokenPipeError, json.JSONDecodeError):
                    answers.append(None)
            self.check(f"race {number}: one has the file", [answer for answer in answers if answer], [1])
            for host, answer in zip(hosts, answers):
                if answer is None:
                    status = host.process.wait()
                    host.errors.seek(0)
                    why = host.errors.read().decode()
                    ends[why.strip()] += 1
                    self.check(f"race {number}: a loser", (status, why), (4, "the file is in use\n"))
                else:
                    self.check(f"race {number}: the end", host.end()[0], 0)
            self.check(f"race {number}: sound", self.open(both(path), "--existing"), ([], ""))
        print(f"{count} races of three processes: {dict(ends)}")


def main():
    opens = Opens(str(Path(sys.argv[1]).resolve()))
    opens.bits()
    opens.sums()
    opens.copies()
    opens.known()
    opens.others()
    opens.edited()
    opens.torn()
    opens.logs()
    opens.versions()
    opens.races(150)
    print(f"{opens.passed} passed, {opens.failed} failed")
    return opens.failed != 0


if __name__ == "__main__":
    sys.exit(main())
