#!/usr/bin/python3
"""Sweeps of sizes over the program of crates/site_main: tests/programs/site_sizes.py PROGRAM. Every length up to a limit, counts from
none to 100, and numbers on both sides of each power of two: each is answered as its neighbours are, so that no size makes a
line give up. The last line is 'N passed, M failed'."""
import json
import sqlite3
import sys
from pathlib import Path

sys.path[:0] = [str(Path(__file__).resolve().parent)]
from site_lines import ORIGIN, PARTY, RP_ID, USER, Host, Tests  # noqa: E402
from device import UP, UV, Device, changed  # noqa: E402
from garvoeng.forms import from_text, to_text  # noqa: E402

POWERS = sorted({number for power in range(1, 64) for number in (2**power - 1, 2**power, 2**power + 1)})


def bytes_of(size, seed=0):
    """So many bytes, others for another seed."""
    return bytes((seed + k) % 251 for k in range(size))


def trusted(*_):
    return True


class Sized(Tests):
    """Counts a sweep as one test, and tells the first size that is answered otherwise."""

    def sweep(self, what, sizes, is_right):
        def is_wrong(size):
            try:
                return not is_right(size)
            except KeyError:
                return True

        sizes = list(sizes)
        wrong = list(filter(is_wrong, sizes))
        self.check(f"{what}: {len(sizes)} sizes" if not wrong else f"{what}: {len(wrong)} of {len(sizes)}, first {wrong[0]}", not wrong)


def begins(tests, host):
    def registers(size, **how):
        answer = host.ask("begin_registration", user=to_text(bytes_of(size)), user_name="n", **how)
        return answer["options"]["user"]["id"] == to_text(bytes_of(size)) and host.ask("abandon", session=answer["session"])["abandoned"]

    def is_named(size):
        answer = host.ask("begin_registration", user=to_text(USER), user_name="é" * size, display_name="x" * size)
        user = answer["options"]["user"]
        return (user["name"], user["displayName"]) == ("é" * size, "x" * size) and host.ask("abandon", session=answer["session"])["abandoned"]

    def lists(ids, name, act, **how):
        answer = host.ask(act, **how, **{name: [to_text(one) for one in ids]})
        member = "allowCredentials" if name == "allow" else "excludeCredentials"
        told = [from_text(one["id"], "id") for one in answer["options"][member]]
        return told == ids and host.ask("abandon", session=answer["session"])["abandoned"]

    def allows(ids):
        return lists(ids, "allow", "begin_sign_in")

    def excludes(ids):
        return lists(ids, "exclude", "begin_registration", user=to_text(USER), user_name="n")

    def begun_for(size):
        answer = host.ask("begin_sign_in", user=to_text(bytes_of(size)))
        return "options" in answer and host.ask("abandon", session=answer["session"])["abandoned"]

    tests.sweep("user handles of a registration", range(1, 65), registers)
    tests.sweep("user handles of a sign-in", range(1, 65), begun_for)
    tests.sweep("user handles out of their limits", [0, *range(65, 300)],
                lambda size: "error" in host.ask("begin_sign_in", user=to_text(bytes_of(size))))
    tests.sweep("names", range(1, 600), is_named)
    tests.sweep("an id in a list", range(1, 1024), lambda size: allows([bytes_of(size)]))
    tests.sweep("ids in a list", range(0, 65), lambda count: allows([bytes_of(20, k) for k in range(count)]))
    tests.sweep("the last id in a list", range(1, 1024, 7), lambda size: allows([bytes_of(9, k) for k in range(63)] + [bytes_of(size)]))
    tests.sweep("more ids than a list has", range(65, 101),
                lambda count: "error" in host.ask("begin_sign_in", allow=[to_text(bytes_of(20, k)) for k in range(count)]))
    tests.sweep("ids that are excluded", range(0, 101), lambda count: excludes([bytes_of(20, k) for k in range(count)]))
    tests.sweep("an id that is excluded", range(1, 1024), lambda size: excludes([bytes_of(size)]))


def registered(host, device, user=USER):
    begun = host.ask("begin_registration", user=to_text(user), user_name="n")
    return host.finish("finish_registration", begun["session"], device.register(begun["options"]), trusted)


def signed_in(host, device, user=USER, change=None, count=None):
    """The answer to a sign-in whose client data were changed, or whose counter is this."""
    if count is not None:
        device.count = count - 1
    begun = host.ask("begin_sign_in", user=to_text(user))
    response = device.sign_in(begun["options"], user)
    if change is not None:
        response = changed(response, "clientDataJSON", change)
    return host.finish("finish_sign_in", begun["session"], response, trusted)


def ceremonies(tests, host):
    device, counted = Device(), Device(credential=b"counted")
    registered(host, device)
    registered(host, counted)

    def padded(size):
        """Client data of this size: spaces are no part of what they say (RFC 8259, section 2)."""
        return "accepted" in signed_in(host, device, change=lambda data: data[:-1] + b" " * (size - len(data)) + data[-1:])

    def is_kept(size):
        one = Device(credential=bytes_of(size, size))
        made = registered(host, one)["accepted"]
        answer = signed_in(host, one)
        return from_text(made["credential"], "id") == one.id and from_text(answer["accepted"]["credential"], "id") == one.id

    def is_theirs(size):
        one, user = Device(credential=b"of a handle of %d" % size), bytes_of(size)
        registered(host, one, user)
        return signed_in(host, one, user)["accepted"]["user"] == to_text(user)

    def counts(number):
        return signed_in(host, counted, count=number)["accepted"]["sign_count"] == number

    shortest = len(device.client_data("webauthn.get", "c" * 43))
    tests.sweep("client data", range(shortest, 5001), padded)
    tests.sweep("long client data", [*range(5001, 40_000, 997), 40_000], padded)
    tests.sweep("credential ids", range(1, 1024, 3), is_kept)
    tests.sweep("user handles of credentials", range(1, 65), is_theirs)
    tests.sweep("counters", [number for number in POWERS if number < 2**32], counts)
    rows = host.ask("rows")["rows"]
    tests.check("rows of all", len(rows), 2 + 341 + 64)
    tests.check("rows of a user", len(host.ask("rows", user=to_text(USER))["rows"]), 343)
    tests.check("rows of no one", host.ask("rows", user=to_text(b"nobody"))["rows"], [])
    for count in range(1, 101):
        registered(host, Device(credential=b"one of %d" % count), b"account of many")
        if len(host.ask("rows", user=to_text(b"account of many"))["rows"]) != count:
            tests.check(f"rows of {count}", False)
    tests.check("the end", host.end(), (0, b"", ""))


def numbers(tests):
    """Sessions whose numbers are on both sides of each power of two; a file's next number is below 2^63."""
    path = tests.file("numbers.db")
    Host(tests.program, path, *PARTY, "--no-sums").end()

    def is_given(number):
        with sqlite3.connect(path) as file:
            file.execute("update site set next_session = ?", (number,))
        file.close()
        host, device = Host(tests.program, path, *PARTY), Device(credential=b"at %d" % number)
        begun = host.ask("begin_registration", user=to_text(USER), user_name="n")
        made = host.finish("finish_registration", begun["session"], device.register(begun["options"]), trusted)
        answer = signed_in(host, device)
        is_told = begun["number"] == number and from_text(begun["options"]["challenge"], "c")[:8] == number.to_bytes(8, "big")
        return host.end()[0] == 0 and is_told and "accepted" in made and "accepted" in answer

    tests.sweep("numbers of sessions", [number for number in POWERS if 2**8 < number < 2**63 - 1_002][::2], is_given)
    with sqlite3.connect(path) as file:
        file.execute("update site set next_session = ?", (2**63 - 1_001,))
    file.close()
    host = Host(tests.program, path, *PARTY)
    tests.check("no number is left", host.ask("begin_sign_in"), {"error": "there is no number for another session"})
    tests.check("the end", host.end(), (0, b"", ""))


def origins(tests):
    """So many origins, and origins of so many characters: a page of the last one signs in."""
    def serves(listed):
        path = tests.file(f"origins{len(listed)}-{len(listed[-1])}.db")
        words = [word for origin in listed for word in ("--origin", origin)]
        host, device = Host(tests.program, path, "--rp-id", RP_ID, *words), Device(origin=listed[-1])
        registered(host, device)
        accepted = "accepted" in signed_in(host, device)
        return host.end()[0] == 0 and accepted

    def host_of(size):
        """An origin of so many characters, by labels of 1 to 63 of them (RFC 1035, section 2.3.4)."""
        name, rest = "", size - len(ORIGIN)
        while rest > 0:
            label = min(rest - 1, 63) if rest - 1 != 64 else 62
            name, rest = "a" * label + "." + name, rest - label - 1
        return "https://" + name + RP_ID

    tests.sweep("origins", [*range(1, 20), *range(20, 101, 8)], lambda count: serves([f"https://a{k}.{RP_ID}" for k in range(count)]))
    tests.sweep("characters of an origin", [len(ORIGIN), *range(len(ORIGIN) + 2, 250, 3)], lambda size: serves([host_of(size)]))


def main():
    tests = Sized(str(Path(sys.argv[1]).resolve()))
    host = Host(tests.program, tests.file("sizes.db"), *PARTY)
    begins(tests, host)
    ceremonies(tests, host)
    numbers(tests)
    origins(tests)
    return tests.verdict()


if __name__ == "__main__":
    sys.exit(main())
