#!/usr/bin/python3
"""WebAuthn Level 3 over lines, of the program of crates/site_main: tests/programs/site_level3.py PROGRAM. Frames, conditional registrations and
statements that nobody asked for, in each profile; wrong members and wrong words. The last line is 'N passed, M failed'."""
import subprocess
import sys
from pathlib import Path

sys.path.insert(0, str(Path(__file__).resolve().parent))
from site_lines import ORIGIN, PARTY, USER, Host, Tests  # noqa: E402
from device import AT, UP, UV, Device, changed  # noqa: E402
from garvoeng import StoredServer  # noqa: E402
from garvoeng.forms import to_text  # noqa: E402

PAGES = ["https://one.example", "https://two.example"]
FRAMED = [word for page in PAGES for word in ("--top-origin", page)]
# What client data say of a frame, and the step that refuses it: without leave, and where the two pages may frame.
FRAMES = (
    ({}, None, None),
    ({"crossOrigin": False}, None, None),
    ({"crossOrigin": True}, 17, 18),
    ({"crossOrigin": True, "topOrigin": PAGES[0]}, 17, None),
    ({"crossOrigin": True, "topOrigin": PAGES[1]}, 17, None),
    ({"topOrigin": PAGES[1]}, 17, None),
    ({"crossOrigin": True, "topOrigin": "https://three.example"}, 17, 18),
    ({"crossOrigin": True, "topOrigin": None}, 17, 18),
    ({"crossOrigin": "true", "topOrigin": PAGES[0]}, 17, 17),
    ({"crossOrigin": None}, 17, 17),
)


def step_of(answer):
    return answer["refused"]["name"] if "refused" in answer else sorted(answer)[0]


def registers(host, device, flags=UP | UV | AT, packed=False, **begin):
    begun = host.ask("begin_registration", user=to_text(USER), user_name="name", **begin)
    return host.finish("finish_registration", begun["session"], device.register(begun["options"], flags=flags, packed=packed))


def signs_in(host, device):
    begun = host.ask("begin_sign_in", user=to_text(USER))
    return host.finish("finish_sign_in", begun["session"], device.sign_in(begun["options"], user=USER))


def frames(tests):
    hosts = {"alone": Host(tests.program, tests.file("alone.db"), *PARTY, "--profile", "level3"),
             "framed": Host(tests.program, tests.file("framed.db"), *PARTY, "--profile=level3", *FRAMED),
             "open": Host(tests.program, tests.file("open.db"), *PARTY, "--profile", "open", *FRAMED),
             "strict": Host(tests.program, tests.file("strict.db"), *PARTY, "--profile", "strict")}
    for name, host in hosts.items():
        for said, alone, framed in FRAMES:
            device = Device(credential=repr(said).encode()[:64])
            step = {"alone": alone, "framed": framed}.get(name)
            first = registers(host, device) if step is None else None
            device.said = said
            wanted = "accepted" if step is None else f"{{}}{step}"
            other = Device(credential=b"2" + repr(said).encode()[:60])
            other.said = said
            tests.check(f"{name}: a registration that says {said}", step_of(registers(host, other)), wanted.format("G"))
            if first is not None:
                tests.check(f"{name}: a sign-in that says {said}", step_of(signs_in(host, device)), wanted.format("W"))
        if name in ("alone", "framed"):
            device = Device(credential=b"of " + name.encode())
            registers(host, device)
            for said, alone, framed in FRAMES:
                device.said, step = said, alone if name == "alone" else framed
                if step is not None:
                    tests.check(f"{name}: a sign-in that says {said}", step_of(signs_in(host, device)), f"W{step}")
            # Each step that refused is counted, those of Level 3 too.
            steps = {step for _, *found in FRAMES for step in (found[name == "framed"],) if step is not None}
            status = host.ask("status")["status"]
            tests.check(f"{name}: refusals by step", ([int(step[1:]) for step in sorted(status["sign_ins_refused"])],
                                                      [int(step[1:]) for step in sorted(status["registrations_refused"])]), (sorted(steps), sorted(steps)))
        tests.check(f"{name}: the end", host.end()[0], 0)


def asked(tests):
    host = Host(tests.program, tests.file("asked.db"), *PARTY, "--profile", "level3")
    for profile in ("level3", "open", "strict"):
        if profile != "level3":
            host = Host(tests.program, tests.file(f"{profile} asked.db"), *PARTY, "--profile", profile)
        is_new = profile == "level3"
        absent = {"flags": AT}
        tests.check(f"{profile}: nobody is present", step_of(registers(host, Device(credential=b"a"), **absent)), "G9")
        tests.check(f"{profile}: nobody need be", step_of(registers(host, Device(credential=b"b"), conditional=True, **absent)),
                    "accepted" if is_new else "G9")
        tests.check(f"{profile}: somebody has to be", step_of(registers(host, Device(credential=b"c"), conditional=False, **absent)), "G9")
        for attestation in (None, False, True):
            more = {} if attestation is None else {"attestation": attestation}
            begun = host.ask("begin_registration", user=to_text(USER), user_name="name", **more)
            made = Device(credential=b"d" + str(attestation).encode()).register(begun["options"], packed=True)
            answer = host.ask("finish_registration", session=begun["session"], response=made)
            is_looked_at = attestation is True or not is_new
            tests.check(f"{profile}: attestation {attestation}", sorted(answer)[0], "verify" if is_looked_at else "accepted")
            found = host.finish("finish_registration", begun["session"], made) if is_looked_at else answer
            tests.check(f"{profile}: its format, attestation {attestation}", found["accepted"]["format"], "packed" if is_looked_at else "none")
        tests.check(f"{profile}: with its signature", step_of(registers(host, Device(credential=b"e"), packed=True, attestation=True)), "accepted")
        begun = host.ask("begin_registration", user=to_text(USER), user_name="name", attestation=True)
        found = host.finish("finish_registration", begun["session"], Device(credential=b"f").register(begun["options"]))
        tests.check(f"{profile}: the format of none, asked for", found["accepted"]["format"], "none")
        begun = host.ask("begin_registration", user=to_text(USER), user_name="name")
        other = changed(Device(credential=b"g").register(begun["options"], packed=True), "attestationObject",
                        lambda data: data.replace(b"\x66packed", b"\x68fido-u2f"))
        found = host.finish("finish_registration", begun["session"], other)
        tests.check(f"{profile}: a format that is not known", found["accepted"]["format"] if is_new else step_of(found), "none" if is_new else "G12")
        for name in ("conditional", "attestation"):
            for bad in (1, "true", [], {}):
                answer = host.ask("begin_registration", user=to_text(USER), user_name="name", **{name: bad})
                tests.check(f"{profile}: {name} {bad!r}", "error" in answer)
            tests.check(f"{profile}: {name} of a sign-in", "error" in host.ask("begin_sign_in", **{name: True}))
        tests.check(f"{profile}: the end", host.end()[0], 0)


def words(tests):
    base = [str(tests.program), str(tests.file("words.db")), *PARTY]
    for bad in (["--profile", "level2"], ["--profile", ""], ["--top-origin", "https://one.example/"], ["--top-origin", "HTTPS://one.example"],
                ["--top-origin", ""], ["--top-origin", PAGES[0], "--top-origin", "one.example"]):
        run = subprocess.run([*base, *bad], input=b"", capture_output=True, timeout=60)
        tests.check(f"{bad}", (run.returncode, tests.file("words.db").exists()), (2, False))
    device = Device(origin=ORIGIN)
    device.said = {"crossOrigin": True, "topOrigin": PAGES[1]}
    for top_origins, wanted in (((), "G17"), (PAGES[:1], "G18"), (PAGES, None)):
        with StoredServer(str(tests.program), str(tests.file(f"{len(top_origins)}.db")), "example.com", [ORIGIN], top_origins=top_origins) as server:
            options, session = server.register_begin(USER, "name")
            try:
                server.register_complete(session, device.register(options))
                found = None
            except Exception as error:
                found = error.name
            tests.check(f"StoredServer, framed by {top_origins}", found, wanted)


def main():
    tests = Tests(sys.argv[1])
    frames(tests)
    asked(tests)
    words(tests)
    return tests.verdict()


if __name__ == "__main__":
    sys.exit(main())
