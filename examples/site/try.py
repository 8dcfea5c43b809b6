"""The program of `try` in the browser, over each storage that it gets."""
import json
import os
import sqlite3
import sys
import time
import urllib.error
import urllib.request
from pathlib import Path

sys.path.insert(0, str(Path(__file__).resolve().parents[2] / "python" / "tests"))
from browser import Chromium, Firefox  # noqa: E402
from device import RS256, Device  # noqa: E402
from garvoeng.forms import from_text  # noqa: E402
from servers import ended, started  # noqa: E402
from accounts import connect_to  # noqa: E402
from acts import PROGRAM  # noqa: E402
from garvoeng import Server  # noqa: E402
from garvoeng.broker import IDLE  # noqa: E402
from garvoeng.sql import LIFETIME, SqlServer  # noqa: E402

PICTURE = os.environ.get("PICTURE")
"""Where to put a picture of the page, if anywhere."""
PORT, DRIVER = 8766, 8767
ORIGIN = f"http://localhost:{PORT}"
passed = failed = 0


def see(what, is_so):
    global passed, failed
    passed, failed = passed + bool(is_so), failed + (not is_so)
    print(("ok      " if is_so else "FAILED  ") + what, flush=True)


def tries_rsa(name, packed):
    """An RSA key, which no browser here makes, so `cryptography` plays the browser and its authenticator."""
    def new_visitor():
        return urllib.request.build_opener(urllib.request.HTTPCookieProcessor())

    def post(path, body):
        asked = urllib.request.Request(ORIGIN + path, json.dumps(body).encode(), {"Content-Type": "application/json"})
        try:
            return json.load(visitor.open(asked))
        except urllib.error.HTTPError as refused:
            return json.load(refused)

    visitor = new_visitor()
    account = "rsa, attested" if packed else "rsa"
    device = Device(RS256, rp_id="localhost", origin=ORIGIN, credential=account.encode())
    options = post("/register/begin", {"name": account})
    see(f"{name}: an RSA key{', self attestation' if packed else ''}", post("/register/finish", device.register(options, packed=packed)).get("passkey"))
    user = from_text(options["user"]["id"], "user")
    counts = [post("/sign-in/finish", device.sign_in(post("/sign-in/begin", {"name": account}), user)).get("count") for _ in range(2)]
    see(f"{name}: signed in with it, twice", counts == [1, 2])
    visitor = new_visitor()
    options = post("/register/begin", {"name": "another " + account})
    see(f"{name}: its id not for another account (G15)", post("/register/finish", device.register(options, packed=packed)).get("refusal") == "G15")


def tries_many(name):
    """Nine passkeys of one account. Each signs in with and without a name."""
    visitor = urllib.request.build_opener(urllib.request.HTTPCookieProcessor())

    def post(path, body):
        asked = urllib.request.Request(ORIGIN + path, json.dumps(body).encode(), {"Content-Type": "application/json"})
        try:
            return json.load(visitor.open(asked))
        except urllib.error.HTTPError as refused:
            return json.load(refused)

    devices = [Device(rp_id="localhost", origin=ORIGIN, credential=b"one of nine, %d" % number) for number in range(9)]
    for device in devices:
        options = post("/register/begin", {"name": "nine"})
        post("/register/finish", device.register(options))
    user = from_text(options["user"]["id"], "user")
    for what, asked in (("by name", {"name": "nine"}), ("without a name", {})):
        counts = [post("/sign-in/finish", device.sign_in(post("/sign-in/begin", asked), user)).get("count") for device in devices]
        see(f"{name}: each of nine passkeys signs in {what}", counts == [1 + (what != "by name")] * 9)


def tries_bodies(name):
    """Bodies that are not requests of the page: answered with 400, and without a trace."""
    deep = b'{"name":' + b"[" * 20_000 + b"]" * 20_000 + b"}"
    bodies = [b"[]", b"null", b"7", b'"a"', b"", b"{", b"\xff", deep, b'{"name":[]}', b'{"name":{}}', b'{"name":7}',
              b'{"name":"\\u0000"}', b'{"name":"\\ud800"}', b'{"name":"' + b"a" * 65 + b'"}', b'{"id":null}']
    for path in ("/register/begin", "/register/finish", "/sign-in/begin", "/sign-in/finish"):
        statuses = []
        for body in bodies + ([b'{"name":""}', b"{}"] if path == "/register/begin" else []):
            if path == "/sign-in/begin" and body == b'{"id":null}':
                continue
            try:
                statuses.append(urllib.request.urlopen(urllib.request.Request(
                    ORIGIN + path, body, {"Content-Type": "application/json"})).status)
            except urllib.error.HTTPError as refused:
                statuses.append(refused.code)
        see(f"{name}: bodies that are no request of {path}: {sorted(set(statuses))}", set(statuses) <= {400})


def in_rows(address, statement, *values):
    """The first value from a statement on the rows of a database, if there is one."""
    with SqlServer(Server("localhost", [ORIGIN]), connect_to(address)).transaction() as rows:
        found = rows.run(statement, *values)
        return found.fetchone()[0] if found.description else None


SHORT = """#!/bin/sh
for word; do
    shift
    [ "$word" = --expire=300 ] && word=--expire=1
    set -- "$@" "$word"
done
exec "{}" "$@"
"""
"""A program whose sessions end after one second."""


def with_program(site, address, program):
    """The site, restarted with this program if it has one."""
    if not address.startswith("program:"):
        return site
    ended(site)
    file = sqlite3.connect(address[len("program:"):], timeout=30, isolation_level=None)
    file.execute("begin exclusive")
    file.close()
    os.environ["PROGRAM"] = program
    return started(address, PORT)


def with_short_sessions(site, address):
    """The site; if it has the program, its sessions are short."""
    short = Path(address.removeprefix("program:") + "-short")
    if address.startswith("program:"):
        short.write_text(SHORT.format(PROGRAM))
        short.chmod(0o755)
    return with_program(site, address, str(short))


def end_sessions(address):
    """Ends all that began at a site with short sessions."""
    if address.startswith("program:"):
        time.sleep(2)
    else:
        in_rows(address, "update garvoeng_session set expires_at = expires_at - ?", LIFETIME + 1)


def emptied(address):
    """The address of files, which are deleted; the address of a database as it is."""
    if not address.startswith("postgres"):
        path = Path(address.removeprefix("program:"))
        for file in path.parent.glob(path.name + "*"):
            file.unlink()
    return address


def tries(browser, address, name, is_whole):
    """Everything that a visitor does in a browser; with `is_whole`, also what needs no browser."""
    def run(script):
        return browser.run(script)

    def named(user):
        run(f"document.getElementById('name').value = '{user}'")

    site = started(address, PORT)
    browser.open(ORIGIN)
    key = browser.authenticator()
    named("ada")
    made = run("register()")
    see(f"{name}: registered", made.get("passkey"))
    run("post('/sign-out')")
    see(f"{name}: signed in by name", run("signIn()").get("user"))
    see(f"{name}: signed in without a name", run("signIn({name: ''})").get("user"))
    see(f"{name}: signed in with verification required", run("signIn({verified: true})").get("user"))
    if PICTURE and name.startswith("Chromium") and name.endswith("SQLite"):
        browser.picture(Path(PICTURE))
    again = run("register()")
    see(f"{name}: the same key not a second time", "InvalidStateError" in again.get("error", ""))
    run("(async () => { window.kept = await assertion(); window.first = await post('/sign-in/finish', window.kept); })()")
    see(f"{name}: accepted once", run("window.first").get("user"))
    see(f"{name}: replayed, refused by the session (W1)", run("post('/sign-in/finish', window.kept)").get("refusal") == "W1")
    run("post('/sign-in/begin', {name: 'ada'})")
    see(f"{name}: replayed in another session (W7)", run("post('/sign-in/finish', window.kept)").get("refusal") == "W7")
    run("(async () => { window.kept = await assertion({name: ''}); })()")
    later = json.dumps(run("assertion({name: ''})"))
    see(f"{name}: an older challenge than the session's (W7)", run("post('/sign-in/finish', window.kept)").get("refusal") == "W7")
    see(f"{name}: the session is as it was before the refusal", run(f"post('/sign-in/finish', {later})").get("user"))
    site = with_short_sessions(site, address)
    run("(async () => { window.kept = await assertion({name: ''}); })()")
    end_sessions(address)
    urllib.request.urlopen(urllib.request.Request(ORIGIN + "/sign-in/begin", b"{}", {"Content-Type": "application/json"})).close()
    see(f"{name}: a session that has ended (W1)", run("post('/sign-in/finish', window.kept)").get("refusal") == "W1")
    site = with_program(site, address, PROGRAM)
    begun = json.dumps(run("assertion({name: ''})"))
    ended(site)
    site = started(address, PORT)
    signed_in = run(f"post('/sign-in/finish', {begun})")
    see(f"{name}: restarted between begin and finish, signed in", signed_in.get("user"))
    listed = run("fetch('/passkeys').then(answer => answer.json())")
    see(f"{name}: listed with its counter", [line["count"] for line in listed] == [signed_in.get("count")])
    ended(site)
    site = started(address, PORT)
    see(f"{name}: restarted, still signed in", run("fetch('/passkeys').then(answer => answer.status)") == 200)
    see(f"{name}: restarted, signed in", run("signIn()").get("user"))
    run("(async () => { document.getElementById('verified').checked = true; await assertion(); })()")
    if not address.startswith("program:"):
        expects = in_rows(address, 'select max(length(data) - length(replace(data, \'"user_verification": true\', \'\'))) from garvoeng_session')
        see(f"{name}: verification required by the page's box", expects)
    run("(async () => { document.getElementById('verified').checked = false; })()")
    browser.verifies(key, False)
    options = "(await post('/sign-in/begin', {name: 'ada', verified: true}))"
    see(f"{name}: required, and the key was asked without it (W13)", run(f"""post('/sign-in/finish', (await navigator.credentials.get({{publicKey:
        PublicKeyCredential.parseRequestOptionsFromJSON({{...{options}, userVerification: 'discouraged'}})}})).toJSON())""").get("refusal") == "W13")
    browser.without(key)
    second = browser.authenticator(transport="internal")
    added = run("register()").get("passkey")
    see(f"{name}: a second passkey", added not in (None, made["passkey"]))
    see(f"{name}: signed in with it", run("signIn()").get("user"))
    see(f"{name}: retired", run(f"post('/passkeys/retire', {{id: '{added}'}})").get("retired") is True)
    see(f"{name}: the sign-in ended with its passkey", run("fetch('/passkeys').then(answer => answer.status)") == 401)
    see(f"{name}: a retired one signs in no more (W3)", run("signIn({name: ''})").get("refusal") == "W3")
    see(f"{name}: nobody is signed in", run("fetch('/passkeys').then(answer => answer.status)") == 401)
    named("eve")
    theirs = run("register()").get("passkey")
    see(f"{name}: another account", theirs)
    see(f"{name}: it does not retire another's passkey", run(f"post('/passkeys/retire', {{id: '{made['passkey']}'}})").get("retired") is False)
    see(f"{name}: no other's name is taken", "another" in run("register({name: 'ada'})").get("error", ""))
    run("(async () => { window.kept = await assertion({name: 'eve'}); await post('/sign-in/begin', {name: 'ada'}); })()")
    see(f"{name}: another user's response (W2)", run("post('/sign-in/finish', window.kept)").get("refusal") == "W2")
    is_program = address.startswith("program:")
    if is_program:
        ended(site)
        time.sleep(IDLE + 1)
    other = started(address, PORT + 3)
    browser.open(f"http://localhost:{PORT + 3}")
    named("eve")
    see(f"{name}: at another origin, accepted there", run("signIn()").get("user"))
    run("(async () => { window.kept = await assertion({name: 'eve'}); })()")
    moved = run("window.kept")
    if is_program:
        ended(other)
        time.sleep(IDLE + 1)
        site = started(address, PORT)
    browser.open(ORIGIN)
    see(f"{name}: and its response refused here (W8)", run(f"post('/sign-in/finish', {json.dumps(moved)})").get("refusal") == "W8")
    browser.without(second)
    third = browser.authenticator()
    named("bob")
    run("(async () => { document.getElementById('resident').checked = false; })()")
    made = run("register()")
    see(f"{name}: a passkey that is not resident", made.get("passkey") and [one["isResidentCredential"] for one in browser.credentials(third)] == [False])
    see(f"{name}: signed in with it by name", run("signIn()").get("user"))
    browser.without(third)
    if is_whole:
        tries_rsa(name, False)
        tries_rsa(name, True)
        tries_many(name)
        tries_bodies(name)
    for process in (other, site):
        ended(process)


for kind in (Chromium, Firefox):
    browser = kind(DRIVER)
    try:
        for address in sys.argv[1:]:
            name = "PostgreSQL" if address.startswith("postgres") else "the program" if address.startswith("program:") else "SQLite"
            if kind is Firefox and name == "PostgreSQL":
                continue
            tries(browser, emptied(address), f"{browser.version.split('.')[0]}, {name}", kind is Chromium)
    finally:
        browser.close()
print(f"{passed} passed, {failed} failed")
sys.exit(failed != 0)
