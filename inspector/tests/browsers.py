#!/usr/bin/python3
"""The inspector in a headless browser: browsers.py Chromium|Firefox FILE. The file is opened as a file: responses of browsers are pasted and
dropped, each control is reached by the keyboard and has a name, nothing breaks the page's policy, and no request leaves it; then it is
served, and a passkey is made on the spot. The last line is 'N passed, M failed'."""
import functools
import http.server
import json
import os
import re
import socket
import socketserver
import sys
import threading
from pathlib import Path

TOP = Path(__file__).resolve().parents[2]
sys.path.insert(0, str(TOP / "examples" / "site"))
import browser  # noqa: E402

kind, file = sys.argv[1], Path(sys.argv[2]).resolve()
passed = failed = 0
TAB, ENTER, SPACE = "\ue004", "\ue007", " "
# What browsers ask of their makers by themselves.
MAKERS = ("mozilla.com", "mozilla.net", "mozilla.org", "firefox.com", "google.com", "googleapis.com", "gstatic.com", "gvt1.com")


def check(what, found, wanted=True):
    global passed, failed
    if found == wanted:
        passed += 1
    else:
        failed += 1
        print(f"FAILED: {kind}, {what}: {found!r}, not {wanted!r}")


class Proxy(socketserver.StreamRequestHandler):
    """Where each request goes that leaves the machine: it is noted, and not answered."""

    noted = []

    def handle(self):
        words = self.rfile.readline().decode(errors="replace").split()
        if len(words) > 1:
            self.noted.append(words[1])


def left():
    """The requests that left the browser, but for those to its maker."""
    hosts = [address.split("//")[-1].split("/")[0].split(":")[0] for address in Proxy.noted]
    return [host for host in hosts if not host.endswith(MAKERS)]


class Served(http.server.BaseHTTPRequestHandler):
    """The one file under each path, and what was asked for."""

    asked = []

    def log_message(self, *_):
        pass

    def do_GET(self):
        self.asked.append(self.path)
        body = file.read_bytes() if self.path.startswith("/inspector.html") else b"<!doctype html><title>without a policy</title>"
        self.send_response(200)
        self.send_header("Content-Type", "text/html; charset=utf-8")
        self.send_header("Content-Length", str(len(body)))
        self.end_headers()
        self.wfile.write(body)


def press(opened, key, times=1):
    """Presses a key of the keyboard."""
    strokes = [{"type": name, "value": key} for _ in range(times) for name in ("keyDown", "keyUp")]
    actions = [{"type": "key", "id": "keyboard", "actions": strokes}]
    if kind == "Chromium":
        opened._ask(opened.path + "/actions", {"actions": actions})
    else:
        opened._ask("WebDriver:PerformActions", actions=actions)


def name_of(opened, selector):
    """The name by which a screen reader tells the first element of a selector, as the browser computes it."""
    if kind == "Chromium":
        found = opened._ask(opened.path + "/element", {"using": "css selector", "value": selector})
        return opened._ask(f"{opened.path}/element/{next(iter(found.values()))}/computedlabel", method="GET")
    found = opened._ask("WebDriver:FindElement", using="css selector", value=selector)
    return opened._ask("WebDriver:GetComputedLabel", id=next(iter(found.values())))


# Begun is when the page has its module; `told` waits for what a script makes the page tell.
BEGIN = """(async () => {
  window.broken = [];
  document.addEventListener('securitypolicyviolation', (event) => broken.push(event.violatedDirective));
  for (let n = 0; n < 400 && find('inspect').disabled && find('fault').textContent === ''; n++) await new Promise((done) => setTimeout(done, 25));
  return [find('inspect').disabled, find('fault').textContent, find('digest').textContent];
})()"""
TOLD = """(async () => {
  find('told').replaceChildren();
  ACT;
  for (let n = 0; n < 400 && !find('verdict') && find('fault').textContent === ''; n++) await new Promise((done) => setTimeout(done, 25));
  const states = [...document.querySelectorAll('.steps li')].map((one) => one.querySelector('.state').textContent);
  const failed = document.querySelector('.steps li.failed');
  return { verdict: find('verdict')?.textContent, fault: find('fault').textContent, states, failed: failed?.id, isOpen: failed?.querySelector('details').open,
           focus: document.activeElement?.id, bytes: failed?.querySelector('dl').textContent, text: find('told').textContent, tables: [...document.querySelectorAll('#told caption')].map((one) => one.textContent),
           json: find('told-json') && JSON.parse(find('told-json').value), given: find('case') && JSON.parse(find('case').value) };
})()"""
PASTE = "find('response').focus(); find('response').select(); document.execCommand('insertText', false, values[0]); find('inspect').click()"
CONTROLS = """(async () => {
  const listed = [...document.querySelectorAll('input, textarea, select, button, a[href], summary, [tabindex="0"]')];
  const seen = listed.filter((one) => one.checkVisibility() && !one.disabled);
  seen.forEach((one, index) => one.setAttribute('data-control', index));
  const [heading] = document.getElementsByTagName('h1');
  heading.tabIndex = -1;
  heading.focus();
  return seen.length;
})()"""


def run(opened, script, *values):
    return opened.run(f"(async () => {{ const find = (id) => document.getElementById(id); return await {script}; }})()", *values)


def tell(opened, act, *values):
    return run(opened, TOLD.replace("ACT", act), *values)


def cases(opened):
    """A registration and a sign-in of a browser, as cases, each accepted and refused."""
    made = json.loads((TOP / "python" / "tests" / "recorded.json").read_text())
    visit, party = made["visits"][1], {"rp_id": "localhost", "origins": [made["origin"]]}
    first = tell(opened, PASTE, json.dumps({**party, **visit["registration"]}))
    check("a registration is accepted", first["verdict"], "The registration is accepted")
    check("each of its steps is passed", set(first["states"]), {"Passed"})
    check("it has a row", first["json"]["credential"]["sign_count"] > 0)
    check("its tables", first["tables"], ["What the client says", "Client data", "Authenticator data", "Public key", "Attestation object"])
    return party, visit, first["json"]["credential"]


def checks_refused(what, found, code):
    at = [step["state"] for step in found["json"]["steps"]].index("failed")
    check(f"{what}: the step", (found["failed"], found["json"]["steps"][at]["code"], found["isOpen"]), (f"step-{code}", code, True))
    check(f"{what}: the states", found["states"], ["Passed"] * at + ["Failed"] + ["Not reached"] * (len(found["states"]) - at - 1))
    shown = [part for entry in found["json"]["steps"][at]["bytes"] for part in (entry["of"], entry["text"]) if part is not None]
    check(f"{what}: the bytes that decided", [part for part in shown if part not in found["bytes"]], [])
    digits = [" ".join(re.findall("..", entry["hex"])) for entry in found["json"]["steps"][at]["bytes"] if entry["hex"]]
    check(f"{what}: in digits", [part for part in digits if part not in found["bytes"]], [])
    check(f"{what}: what to do", [found["json"]["steps"][at][name].replace("`", "") in found["text"] for name in ("asks", "when", "advice")], [True, True, True])
    check(f"{what}: all is shown as text", "[object" in found["text"] or "undefined" in found["text"], False)
    check(f"{what}: the verdict", (found["verdict"].split(" is ")[1][:8], found["focus"]), ("refused:", "verdict"))


def verdicts(opened):
    party, visit, credential = cases(opened)
    sign_in = {**party, **visit["sign_ins"][0], "credential": credential}
    found = tell(opened, PASTE, json.dumps(sign_in))
    check("a sign-in is accepted", (found["verdict"], set(found["states"]), found["focus"]), ("The sign-in is accepted", {"Passed"}, "verdict"))
    check("its case is the one that was pasted", {name: found["given"][name] for name in ("response", "rp_id", "origins", "session")},
          {name: sign_in[name] for name in ("response", "rp_id", "origins", "session")})
    check("its case again", tell(opened, PASTE, json.dumps(found["given"]))["json"], found["json"])
    check("its tables", found["tables"], ["What the client says", "Client data", "Authenticator data"])
    row = {"id": credential["id"], "user": credential["user"], "sign_count": credential["sign_count"],
           "spki_key": visit["registration"]["response"]["response"]["publicKey"]}
    found = tell(opened, PASTE, json.dumps({**sign_in, "credential": row}))
    check("the key as the browser gave it", (found["verdict"], found["given"]["credential"]["spki_key"]), ("The sign-in is accepted", row["spki_key"]))
    other = {**sign_in, "session": {**sign_in["session"], "challenge": "A" * 43}}
    checks_refused("another challenge", tell(opened, PASTE, json.dumps(other)), "W7")
    altered = {**sign_in, "response": {**sign_in["response"], "response": {**sign_in["response"]["response"], "signature": "MAA"}}}
    checks_refused("another signature", tell(opened, PASTE, json.dumps(altered)), "W14")
    checks_refused("a case without a row", tell(opened, PASTE, json.dumps({name: value for name, value in sign_in.items() if name != "credential"})), "W3")
    checks_refused("a registered id", tell(opened, PASTE, json.dumps({**party, **visit["registration"], "registered": True})), "G15")
    alone = tell(opened, "find('has-session').click();" + PASTE, json.dumps(visit["registration"]["response"]))
    checks_refused("a response alone, and no session", alone, "G1")
    check("its fields", run(opened, "[...document.querySelectorAll('fieldset[data-kind]')].map((one) => one.hidden)"), [False, True])
    take = "find('registered').checked = false; find('response').value = JSON.stringify(values[0]); find('take').click(); find('inspect').click()"
    taken = tell(opened, take, visit["registration"]["response"])
    check("what is expected is taken from the response", (taken["verdict"], taken["given"]["rp_id"]), ("The registration is accepted", "localhost"))
    check("of no response nothing is taken", tell(opened, "find('response').value = '{}'; find('take').click()")["fault"],
          "The response has no client data with a challenge and an origin.")
    for what, text in (("no JSON", "{"), ("nothing", "")):
        check(what, tell(opened, PASTE, text)["fault"], "The response is not JSON.")
    check("another JSON", tell(opened, PASTE, "[7]")["verdict"], "It is not judged")
    hostile = {**sign_in["response"], "response": {**sign_in["response"]["response"], "transports": ["<img src=x onerror=broken.push(1)>"]}}
    tell(opened, PASTE, json.dumps({**sign_in, "response": hostile}))
    check("what is shown is text", run(opened, "document.querySelectorAll('img').length"), 0)
    drop = ("const data = new DataTransfer(); data.items.add(new File([values[0]], 'case.json'));"
            "find('response').dispatchEvent(new DragEvent('drop', {{ dataTransfer: data, bubbles: true, cancelable: true }}));"
            "{0} await new Promise((done) => setTimeout(done, 200)); find('inspect').click()")
    check("a file that is dropped", tell(opened, drop.format(""), json.dumps(sign_in))["verdict"], "The sign-in is accepted")
    choose = drop.replace("find('response').dispatchEvent(new DragEvent('drop', {{ dataTransfer: data, bubbles: true, cancelable: true }}));",
                          "find('file').files = data.files; find('file').dispatchEvent(new Event('change'));")
    check("a file that is chosen", tell(opened, choose.format(""), json.dumps(other))["failed"], "step-W7")
    return sign_in


def keyboard(opened):
    """Each control is reached by Tab, in the order of the page, and has a name; two are used by keys."""
    run(opened, "(() => { document.querySelectorAll('details').forEach((one) => { one.open = true; }); })()")
    count, reached = run(opened, CONTROLS), []
    for _ in range(count):
        press(opened, TAB)
        reached.append(run(opened, "document.activeElement.getAttribute('data-control')"))
    check("each control is reached by the keyboard, in the order of the page", reached, [str(index) for index in range(count)])
    names = [name_of(opened, f'[data-control="{index}"]') for index in range(count)]
    check("each control has a name", [index for index, name in enumerate(names) if not name.strip()], [])
    check("a heading is the page's first", run(opened, "[...document.querySelectorAll('h1, h2, h3')].map((one) => one.localName)[0]"), "h1")
    run(opened, "find('told').replaceChildren(), find('example-registration').focus()")
    press(opened, ENTER)
    found = tell(opened, "find('example-registration').focus(); await new Promise((done) => setTimeout(done, 500))")
    check("a button by Enter", run(opened, "find('response-kind').textContent"), "It is a response of a registration.")
    before = run(opened, "find('has-session').focus(), find('has-session').checked")
    press(opened, SPACE)
    check("a box by the space bar", run(opened, "find('has-session').checked"), not before)
    run(opened, "find('challenge').focus()")
    press(opened, ENTER)
    found = tell(opened, "await new Promise((done) => setTimeout(done, 500)); find('inspect').click()")
    checks_refused("inspected by keys", found, "G1")


def policy(opened):
    """Nothing has broken the policy, which holds: what a script would ask for outside is refused, and told."""
    check("nothing breaks the policy", run(opened, "broken"), [])
    check("nothing is loaded", run(opened, "performance.getEntriesByType('resource').map((one) => one.name)"), [])
    check("it keeps nothing", run(opened, "(() => { try { return [localStorage.length, sessionStorage.length, document.cookie]; } catch { return [0, 0, '']; } })()"), [0, 0, ""])
    check("its style is there", run(opened, "getComputedStyle(document.querySelector('.check')).display"), "flex")
    tries = {"connect-src": "fetch('http://left.example/a').catch(() => {})", "img-src": "new Image().src = 'http://left.example/b'",
             "script-src-elem": "import('http://left.example/e.mjs').catch(() => {})",
             "require-trusted-types-for": "try { document.head.append(Object.assign(document.createElement('script'), { textContent: 'window.ran = 1' })); } catch {}",
             "style-src-elem": "document.head.append(Object.assign(document.createElement('style'), { textContent: 'body { color: red }' }))",
             "frame-src": "document.body.append(Object.assign(document.createElement('iframe'), { src: 'http://left.example/c' }))"}
    for directive, script in tries.items():
        found = run(opened, f"(async () => {{ broken.length = 0; {script}; await new Promise((done) => setTimeout(done, 300)); return broken; }})()")
        check(f"the policy refuses by {directive}", [one for one in found if one.split("-elem")[0] == directive.split("-elem")[0]] != [])
    written = run(opened, "(() => { try { find('told').innerHTML = '<b>written</b>'; return 'written'; } catch (error) { return error.name; } })()")
    check("no text becomes elements", written == "TypeError" if run(opened, "typeof trustedTypes") == "object" else True)
    check("no script runs beside the page's", run(opened, "window.ran ?? null"), None)
    run(opened, "(async () => { find('form').action = 'http://left.example/d'; HTMLFormElement.prototype.submit.call(find('form')); await new Promise((done) => setTimeout(done, 500)); })()")
    check("no form is sent", run(opened, "location.href"), file.as_uri())
    check("no request left", left(), [])


def as_file(opened):
    opened.open(file.as_uri())
    disabled, fault, digest = run(opened, BEGIN)
    manifest = dict(line.rsplit(" ", 1) for line in (TOP / "dist" / "MANIFEST").read_text().splitlines() if " sha256 " in line)
    check("it begins", (disabled, fault), (False, ""))
    check("its module is the one that is handed out", digest, manifest["portable/passkey.wasm sha256"])
    check("no passkey is made for a file", run(opened, "[find('making-controls').hidden, find('making-hint').textContent.length > 0]"), [True, True])
    verdicts(opened)
    keyboard(opened)
    policy(opened)
    opened.open(file.as_uri())
    run(opened, BEGIN)
    check("a page that is opened again has nothing", run(opened, "[find('response').value, find('challenge').value, find('row-id').value]"), ["", "", ""])


def made_here(opened):
    """A passkey of the page's own origin."""
    served = http.server.ThreadingHTTPServer(("localhost", 0), Served)
    threading.Thread(target=served.serve_forever, daemon=True).start()
    opened.open(f"http://localhost:{served.server_port}/inspector.html")
    key = opened.authenticator()
    check("it begins at an origin", run(opened, BEGIN)[:2], [False, ""])
    make = "find('making-attestation').value = '{0}'; find('make').click()"
    if kind == "Chromium":  # Firefox asks its user whether to tell the key's make.
        found = tell(opened, make.format("direct"))
        checks_refused("an attestation with certificates", found, "G13")
        check("its certificates are shown", "BEGIN CERTIFICATE" in found["json"]["decoded"]["attestation"]["certificates"][0]["pem"])
        opened.without(key)
        key = opened.authenticator()
    found = tell(opened, make.format("none"))
    check("a passkey is made", (found["verdict"], set(found["states"])), ("The registration is accepted", {"Passed"}))
    found = tell(opened, "find('use').click()")
    check("it signs in", (found["verdict"], set(found["states"])), ("The sign-in is accepted", {"Passed"}))
    check("inspected again", tell(opened, "find('inspect').click()")["json"], found["json"])
    found = tell(opened, "find('use').click()")
    check("it signs in again", found["verdict"], "The sign-in is accepted")
    opened.without(key)
    check("nothing breaks the policy at an origin", run(opened, "broken"), [])
    check("nothing else is asked of the origin", Served.asked, ["/inspector.html"])
    served.shutdown()


def seen(opened):
    """A page without a policy, whose requests leave: the proxy notes them."""
    served = http.server.ThreadingHTTPServer(("localhost", 0), Served)
    threading.Thread(target=served.serve_forever, daemon=True).start()
    opened.open(f"http://localhost:{served.server_port}/none")
    run(opened, "fetch('http://left.example/seen', { mode: 'no-cors' }).catch(() => {})")
    check("the proxy notes what leaves", "left.example" in left())
    served.shutdown()


def free_port():
    with socket.create_server(("localhost", 0)) as one:
        return one.getsockname()[1]


proxy = socketserver.ThreadingTCPServer(("localhost", 0), Proxy)
proxy.daemon_threads = True
threading.Thread(target=proxy.serve_forever, daemon=True).start()
for name in ("http_proxy", "https_proxy", "HTTP_PROXY", "HTTPS_PROXY"):
    os.environ[name] = f"http://localhost:{proxy.server_address[1]}"
for name in ("no_proxy", "NO_PROXY"):
    os.environ[name] = "localhost,127.0.0.1"
attended = functools.partial(browser.attended, getattr(browser, kind))
for act in (as_file, made_here, seen):
    attended(free_port(), act)
print(f"{passed} passed, {failed} failed")
sys.exit(failed != 0)
