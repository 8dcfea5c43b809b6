#!/usr/bin/python3
"""The package in a headless browser: browsers.py Chromium|Firefox FOLDER, in which the package is installed and the sites of
examples/node lie. The page judges the table of responses by `garvoeng/web` (MALFORMED, HOSTILE, RECORDED); then `garvoeng/browser` signs in
at each site, over the proved program (PROGRAM) and over PostgreSQL, whose address stands in the environment, by four processes, and at
the end while one of these is killed after the other. The last line is 'N passed, M failed'."""
import functools
import http.server
import json
import os
import random
import signal
import socket
import subprocess
import sys
import threading
import time
import urllib.error
import urllib.request
from pathlib import Path

top = Path(os.environ["TOP"])
sys.path.insert(0, str(top / "examples" / "site"))
import browser  # noqa: E402

kind, folder = sys.argv[1], Path(sys.argv[2])
passed = failed = 0


def check(what, found, wanted=True):
    global passed, failed
    if found == wanted:
        passed += 1
    else:
        failed += 1
        print(f"FAILED: {kind}, {what}: {found!r}, not {wanted!r}")


class Files(http.server.SimpleHTTPRequestHandler):
    extensions_map = {**http.server.SimpleHTTPRequestHandler.extensions_map, ".mjs": "text/javascript", ".wasm": "application/wasm"}

    def log_message(self, *_):
        pass

    def do_GET(self):
        named = {f"/{name}": os.environ[name].split(":") for name in ("MALFORMED", "HOSTILE", "RECORDED")}
        path, _, index = self.path.partition("?")
        if path not in named:
            return super().do_GET()
        body = Path(named[path][int(index or 0)]).read_bytes()
        self.send_response(200)
        self.send_header("Content-Type", "text/plain; charset=utf-8")
        self.send_header("Content-Length", str(len(body)))
        self.end_headers()
        self.wfile.write(body)


# The module that each of these asks for.
PAGE = """(async () => {{
  const web = await import('/node_modules/garvoeng/web.js'), table = await import('/tests/table.mjs');
  const text = async (path) => (await fetch(path)).text();
  await web.load();
  const {{ tried, wrong }} = await table.{call};
  return {{ tried, wrong: wrong.slice(0, 9) }};
}})()"""
VISIT = """(async () => {
  const { register, signIn } = await import('/passkeys/browser.js');
  const post = async (path, body) => {
    const answer = await fetch(`/passkeys/${path}`, { method: 'POST', headers: { 'Content-Type': 'application/json' }, body: JSON.stringify(body), signal: AbortSignal.timeout(30_000) });
    return { status: answer.status, ...await answer.json() };
  };
  const visit = async (act, change = (made) => made) => {
    const options = await post(`${act}/begin`, { name: 'ada' });
    delete options.status;
    const { id, ...told } = await post(`${act}/finish`, change(await (act === 'register' ? register : signIn)(options)));
    return { user: options.user?.id, ...told };
  };
  return SCRIPT;
})()"""
# Sign-ins for so many milliseconds, each response sent twice at once, whatever the site does meanwhile.
WITHOUT_END = """await (async () => {
  const counted = { accepted: 0, failed: 0, twice: 0 }, ends = Date.now() + MILLISECONDS;
  while (Date.now() < ends) {
    try {
      const { status, ...options } = await post('sign-in/begin', {});
      if (status !== 200) throw new Error('no session');
      const made = await signIn(options), answers = await Promise.all([made, made].map((one) => post('sign-in/finish', one).catch(() => ({ status: 0 }))));
      const accepted = answers.filter((answer) => answer.status === 200).length;
      counted.accepted += accepted;
      if (accepted > 1) counted.twice++;
    } catch {
      counted.failed++;
      await new Promise((done) => setTimeout(done, 50));
    }
  }
  return counted;
})()"""
# As a browser that has no JSON calls.
OLD = """(async () => { for (const name of ['parseCreationOptionsFromJSON', 'parseRequestOptionsFromJSON']) delete PublicKeyCredential[name];
delete PublicKeyCredential.prototype.toJSON; return typeof PublicKeyCredential.parseCreationOptionsFromJSON; })()"""


def free_port():
    with socket.create_server(("localhost", 0)) as one:
        return one.getsockname()[1]


def in_page(opened):
    """The page judges by itself."""
    served = http.server.ThreadingHTTPServer(("localhost", 0), functools.partial(Files, directory=str(folder)))
    threading.Thread(target=served.serve_forever, daemon=True).start()
    opened.open(f"http://localhost:{served.server_port}/")
    for call, tried in (("malformed(web, await text('/MALFORMED'))", 2103), ("hostile(web, await text('/HOSTILE'))", None),
                        ("recorded(web, await Promise.all([text('/RECORDED'), text('/RECORDED?1')]))", 192)):
        found = opened.run(PAGE.format(call=call))
        check(f"the page judges {call}", found.get("wrong", found), [])
        check(f"so many of {call}", found.get("tried") == tried if tried else found.get("tried", 0) >= 2000)
    served.shutdown()


def started(site, **environment):
    """A site of four processes, which answers at its port."""
    port = free_port()
    said = {**os.environ, "PORT": str(port), **environment}
    run = subprocess.Popen(["node", "workers.cjs", f"./{site}.cjs"], cwd=folder, env=said, stderr=subprocess.DEVNULL)
    for _ in range(1200):
        try:
            urllib.request.urlopen(f"http://localhost:{port}/", timeout=10).close()
            return run, port
        except OSError:
            time.sleep(0.1)
    raise SystemExit(f"{site} does not answer")


def posted(port, path, body, cookie=""):
    request = urllib.request.Request(f"http://localhost:{port}{path}", body, {"Content-Type": "application/json", "Cookie": cookie})
    try:
        with urllib.request.urlopen(request, timeout=30) as answer:
            return answer.status, answer.read().decode(), answer.headers.get("Set-Cookie", "")
    except urllib.error.HTTPError as error:
        with error:
            return error.code, error.read().decode(), ""


def hostile_requests(site, port):
    """What no page of the site sends: a named refusal, and the site goes on."""
    begun = posted(port, "/passkeys/sign-in/begin", b"{}")
    cookie = begun[2].split(";")[0]
    other = posted(port, "/passkeys/sign-in/begin", b"{}")[2].split(";")[0]
    response = {"id": "AA", "rawId": "AA", "type": "public-key", "response": {"clientDataJSON": "AA", "authenticatorData": "AA", "signature": "AA"}}
    whole = json.dumps(response).encode()
    check(f"{site}: a response of nobody", json.loads(posted(port, "/passkeys/sign-in/finish", whole, cookie)[1]).get("refusal"), "W3")
    mixed, name = cookie[:len(cookie) // 2] + other[len(other) // 2:], cookie.split("=")[0]
    for sent in ("", f"{name}=", f"{name}=1", mixed, cookie[:-1], cookie[:-2] + "AA", cookie.replace("sign_in", "registration"), f"{name}=" + "A" * 4000, f"{name}=%"):
        status, said, _ = posted(port, "/passkeys/sign-in/finish", whole, sent)
        check(f"{site}: the cookie {sent[:40]}", (status, json.loads(said).get("refusal")), (403, "W1"))
    for path in ("/passkeys/register/begin", "/passkeys/register/finish", "/passkeys/sign-in/finish"):
        for body in (b"", b"null", b"[]", b"7", b'"x"', b"{", b"\xff", b'{"name":{"toString":1}}', b'{"name":null}', b"<script>", b"[" * 50_000, b'{"__proto__":{}}',
                     b'{"name":"\\ud800"}', b'{"name":1e999}', b'{"id":' + b"[" * 60_000 + b"]" * 60_000 + b"}", b"A" * 140_000, json.dumps({"name": "A" * 70_000}).encode()):
            status, said, _ = posted(port, path, body, cookie)
            check(f"{site}: {path} {body[:20]}", (status, list(json.loads(said))), (400, ["error"]))
    check(f"{site}: no such page", posted(port, "/passkeys/toString", b"{}")[0], 404)
    check(f"{site}: it goes on", posted(port, "/passkeys/sign-in/begin", b"{}")[0], 200)


def visits(opened, site, port):
    """Acts of the page, and of its script."""
    origin = f"http://localhost:{port}/"
    opened.open(origin + "passkeys/browser.js")  # Where nothing asks for autofill.
    key = opened.authenticator()
    run = lambda script: opened.run(VISIT.replace("SCRIPT", script))  # noqa: E731
    made, transports = run("await (async () => { let kept; return [await visit('register', (one) => (kept = one)), kept.response.transports]; })()")
    check(f"{site}: registered", (made.get("status"), len(made.get("user", ""))), (200, 43))
    signed = run("await visit('sign-in')")
    check(f"{site}: signed in", signed, made)
    wrong = run("await visit('sign-in', (made) => ({ ...made, response: { ...made.response, signature: 'AA' } }))")
    check(f"{site}: another signature", (wrong.get("status"), wrong.get("refusal")), (403, "W14"))
    account = "await (async () => { const answer = await fetch('/account'); return [answer.status, await answer.text()]; })()"
    check(f"{site}: whose account it is", run(account), [200, made.get("user")])
    check(f"{site}: signed out", (run("await post('sign-out', {})"), run(account)), ({"status": 200}, [401, "nobody is signed in"]))
    twice = run("await (async () => { let kept; const first = await visit('sign-in', (made) => (kept = made));"
                " return [first, await post('sign-in/finish', kept)]; })()")
    check(f"{site}: once", (twice[0], twice[1].get("refusal")), (made, "W1"))
    check(f"{site}: a page of old", opened.run(OLD), "undefined")
    check(f"{site}: its sign-in", run("await visit('sign-in')"), made)
    asked = run("await (async () => { const own = navigator.credentials.get, asked = [];"
                " navigator.credentials.get = async (options) => { asked.push([options.mediation ?? null, options.signal instanceof AbortSignal]); throw new Error('none'); };"
                " for (const how of [{ mediation: 'conditional' }, {}, undefined]) await signIn({ challenge: 'AAAA' }, how).catch(() => {});"
                " navigator.credentials.get = own; return asked; })()")
    check(f"{site}: what is asked of the browser", asked, [["conditional", True], [None, True], [None, True]])
    opened.without(key)
    key = opened.authenticator()
    second = run("await visit('register')")
    check(f"{site}: its registration, of the same account", (second, run("await visit('sign-in')")), (made, made))
    listed = run("await (async () => { let kept; await post('sign-out', {}); await visit('register', (made) => (kept = made));"
                 " const named = (error) => error.name, list = (id) => [{ type: 'public-key', id }];"
                 " const again = { ...await post('register/begin', { name: 'ada' }), excludeCredentials: list(kept.id) };"
                 " const other = { ...await post('sign-in/begin', {}), allowCredentials: list('AAAA'), timeout: 500 };"
                 " const own = { ...other, allowCredentials: list(kept.id) };"
                 " return [await register(again).catch(named), (await signIn(own)).id === kept.id, await signIn(other).catch(named), kept.response.transports]; })()")
    check(f"{site}: its lists", listed, ["InvalidStateError", True, "NotAllowedError", transports])
    ended = run("await (async () => { const controller = new AbortController();"
                " controller.abort(new Error('enough'));"
                " const options = { challenge: 'AAAA', rpId: 'localhost', allowCredentials: [] };"
                " return signIn(options, { signal: controller.signal }).then(() => 'done', (error) => error.message); })()")
    check(f"{site}: a signal that has ended it", ended, "enough")
    opened.without(key)
    waiting = run("await (async () => { const options = { challenge: 'AAAA', rpId: 'localhost', allowCredentials: [] }, controller = new AbortController();"
                  " const named = (error) => error.name, one = signIn(options).catch(named);"
                  " await new Promise((done) => setTimeout(done, 200));"
                  " const two = signIn(options, { signal: controller.signal }).catch(named);"
                  " setTimeout(() => controller.abort(), 200); return [await one, await two]; })()")
    check(f"{site}: calls without a key, the first ended by the second", waiting[0] in ("AbortError", "NotAllowedError"))
    check(f"{site}: the second by its signal", waiting[1] in ("AbortError", "NotAllowedError"))
    key = opened.authenticator()
    opened.open(origin)
    click = "(async () => {{ document.getElementById('{0}').click(); const said = () => document.getElementById('said').textContent;" \
            " for (let n = 0; n < 500 && !said().startsWith('{0}: '); n++) await new Promise((done) => setTimeout(done, 50)); return said(); }})()"
    first = opened.run(click.format("register"))
    check(f"{site}: the page registers", (first.startswith("register: "), len(first) >= len("register: ") + 22), (True, True))
    check(f"{site}: the page signs in", opened.run(click.format("sign-in")), f"sign-in: {run(account)[1]}")
    check(f"{site}: autofill is asked for", run("await (await import('/passkeys/browser.js')).canAutofill()") in (True, False))
    opened.without(key)
    own_page(opened, site, origin)


# Clicks an element of the core's page, and waits for what is said and for its list.
CLICK = """(async () => { const element = (id) => document.getElementById(id), lines = () => [...document.querySelectorAll('#passkeys li')], buttons = () => document.querySelectorAll('#passkeys button');
element('name').value = 'ada'; element('said').textContent = ''; WHAT.click();
for (let n = 0; n < 400 && (element('said').textContent === '' || !(LISTED)); n++) await new Promise((done) => setTimeout(done, 50));
return [element('said').textContent, lines().length, lines().map((one) => one.firstChild.data).join()]; })()"""


def own_page(opened, site, origin):
    """The page that the core has, with its script and its policy."""
    clicked = lambda what, count, listed="true": opened.run(CLICK.replace("WHAT", what).replace("LISTED", f"lines().length === {count} && {listed}"))  # noqa: E731
    opened.open(origin + "passkeys/")
    key = opened.authenticator()
    check(f"{site}: the core's page signs out", clicked("element('sign-out')", 0)[:2], ["signed out", 0])
    check(f"{site}: it registers", clicked("element('register')", 1)[:2], ["registered", 1])
    said, count, line = clicked("(document.querySelector('#passkeys input').value = 'blue', buttons()[0])", 1, "lines()[0].firstChild.data.startsWith('blue, ')")
    check(f"{site}: it names a passkey", (said, count, line.startswith("blue, ")), ("renamed", 1, True))
    opened.open(origin + "passkeys")
    check(f"{site}: it signs in, and has its scripts without a slash at the end", clicked("element('sign-in')", 1)[:2], ["signed in", 1])
    check(f"{site}: it retires, and who came in by that is out", clicked("buttons()[1]", 0)[:2], ["retired", 0])
    check(f"{site}: who comes in no more", clicked("element('sign-in')", 0)[0] not in ("", "signed in"))
    opened.without(key)


def name_of(pid):
    """The name of a process, or none where it has ended."""
    try:
        return Path(f"/proc/{pid}/comm").read_text()
    except (FileNotFoundError, ProcessLookupError):
        return ""


def workers_of(primary):
    children = Path(f"/proc/{primary.pid}/task/{primary.pid}/children").read_text().split()
    return [int(pid) for pid in children if name_of(pid).startswith("node")]


def kills(primary, port, ended, killed):
    """Ends one of the site's processes at a time, whichever, and notes which. Between two the site answers, however slow the
    machine is."""
    while not ended.is_set():
        time.sleep(random.uniform(0.1, 0.5))
        try:
            for _ in range(5):
                urllib.request.urlopen(f"http://localhost:{port}/", timeout=30).close()
            killed.append(random.choice(workers_of(primary)))
            os.kill(killed[-1], signal.SIGKILL)
        except (OSError, IndexError):
            continue


def visits_while_killed(opened, site, port, primary):
    opened.open(f"http://localhost:{port}/passkeys/browser.js")
    key = opened.authenticator()
    run = lambda script: opened.run(VISIT.replace("SCRIPT", script))  # noqa: E731
    made, killed, ended = run("await visit('register')"), [], threading.Event()
    killing = threading.Thread(target=kills, args=(primary, port, ended, killed))
    killing.start()
    accepted = twice = 0
    for _ in range(12):
        counted = run(WITHOUT_END.replace("MILLISECONDS", "10_000"))
        accepted, twice = accepted + counted.get("accepted", 0), twice + counted.get("twice", 1)
        if accepted >= 5 and len(set(killed)) >= 4:
            break
    ended.set()
    killing.join()
    check(f"{site}: workers were killed", len(set(killed)) >= 4)
    check(f"{site}: accepted while they were", (accepted >= 5, twice), (True, 0))
    for _ in range(600):
        if len(workers_of(primary)) == 4:
            break
        time.sleep(0.1)
    # Until the last one listens, and the browser has let go of what a killed one left.
    for _ in range(600):
        if not str(run("await visit('sign-in')").get("error")).startswith("TypeError"):
            break
        time.sleep(0.1)
    check(f"{site}: and afterwards", run("await visit('sign-in')"), made)
    opened.without(key)


def at_site(opened, site, storage):
    """All that is done at a site, which begins with nothing."""
    environment = {"FILE": str(folder / f"{kind}-{site}-{time.monotonic_ns()}.db")} if storage == "program" else {"DATABASE_URL": "postgresql://"}
    run, port = started(site, **environment)
    try:
        visits(opened, f"{site} over {storage}", port)
        hostile_requests(f"{site} over {storage}", port)
        visits_while_killed(opened, f"{site} over {storage}", port, run)
    finally:
        run.send_signal(signal.SIGTERM)
        run.wait(30)


attended = functools.partial(browser.attended, getattr(browser, kind))
attended(free_port(), in_page)
for site in ("http", "express"):
    for storage in ("program", "PostgreSQL"):
        attended(free_port(), functools.partial(at_site, site=site, storage=storage))
print(f"{passed} passed, {failed} failed")
sys.exit(failed != 0)
