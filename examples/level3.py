"""The program of examples/level3. The site is http://localhost:8201; http://evil.localhost:8202 shows it in a frame."""
import http.server
import json
import sys
import threading
import time
from pathlib import Path

HERE = Path(__file__).resolve().parent
sys.path.insert(0, str(HERE / "site"))
from browser import Chromium, Firefox  # noqa: E402
from garvoeng import Refused, Server  # noqa: E402

SITE, OTHER = "http://localhost:8201", "http://evil.localhost:8202"
PAGE = """<!doctype html><title>the site</title><button id=go>go</button><script>
const bytes = text => Uint8Array.from(atob(text.replaceAll('-', '+').replaceAll('_', '/')), one => one.charCodeAt(0));
const text = value => btoa(String.fromCharCode(...new Uint8Array(value))).replaceAll('+', '-').replaceAll('/', '_').replaceAll('=', '');
const descriptors = listed => (listed || []).map(one => ({...one, id: bytes(one.id)}));
const said = made => ({id: made.id, rawId: text(made.rawId), type: made.type, response: Object.fromEntries(
  ['clientDataJSON', 'attestationObject', 'authenticatorData', 'signature', 'userHandle'].filter(name => made.response[name])
    .map(name => [name, text(made.response[name])])), results: JSON.stringify(made.getClientExtensionResults(), (_, value) =>
      value instanceof ArrayBuffer ? text(value) : value)});
async function create(options, mediation) {
  const publicKey = {...options, challenge: bytes(options.challenge), user: {...options.user, id: bytes(options.user.id)},
    excludeCredentials: descriptors(options.excludeCredentials)};
  return said(await navigator.credentials.create({publicKey, mediation}));
}
async function get(options, mediation) {
  const publicKey = {...options, challenge: bytes(options.challenge), allowCredentials: descriptors(options.allowCredentials)};
  return said(await navigator.credentials.get({publicKey, mediation}));
}
async function does(what, ...words) {
  const answer = await ({create, get})[what](...words).catch(error => ({error: String(error)}));
  await fetch('/answer', {method: 'POST', body: JSON.stringify(answer)});
}
// In a frame: what is to be done is asked of the site, and done at a click.
document.getElementById('go').onclick = async () => does(...await (await fetch('/task')).json());
</script>"""
FRAMING = f"""<!doctype html><title>another site</title>
<iframe id=it src="{SITE}/" allow="publickey-credentials-get *; publickey-credentials-create *" width=300 height=100></iframe>"""
passed = failed = 0


def see(what, found, wanted):
    global passed, failed
    is_so = found == wanted
    passed, failed = passed + is_so, failed + (not is_so)
    print(("ok      " if is_so else "FAILED  ") + what + ("" if is_so else f": {found!r}, not {wanted!r}"), flush=True)


class Pages(http.server.BaseHTTPRequestHandler):
    task = None
    answers = []

    def log_message(self, *_):
        pass

    def _send(self, kind, body):
        self.send_response(200)
        self.send_header("Content-Type", kind)
        self.send_header("Content-Length", str(len(body)))
        self.end_headers()
        self.wfile.write(body)

    def do_GET(self):
        if self.path == "/task":
            return self._send("application/json", json.dumps(Pages.task).encode())
        self._send("text/html; charset=utf-8", (PAGE if self.server.server_port == 8201 else FRAMING).encode())

    def do_POST(self):
        Pages.answers.append(json.loads(self.rfile.read(int(self.headers["Content-Length"]))))
        self._send("application/json", b"{}")


def click_in_frame(browser):
    """Clicks on the button of the page in the frame, as a user would."""
    if isinstance(browser, Chromium):
        found = browser._ask(browser.path + "/element", {"using": "css selector", "value": "#it"})
        browser._ask(browser.path + "/frame", {"id": found})
        button = browser._ask(browser.path + "/element", {"using": "css selector", "value": "#go"})
        browser._ask(f"{browser.path}/element/{next(iter(button.values()))}/click", {})
        browser._ask(browser.path + "/frame", {"id": None})
    else:
        found = browser._ask("WebDriver:FindElement", using="css selector", value="#it")
        browser._ask("WebDriver:SwitchToFrame", element=next(iter(found.values())))
        button = browser._ask("WebDriver:FindElement", using="css selector", value="#go")
        browser._ask("WebDriver:ElementClick", id=next(iter(button.values())))
        browser._ask("WebDriver:SwitchToFrame", id=None)


def in_frame(browser, *task):
    """The answer of the page in the other site's frame."""
    Pages.task, Pages.answers[:] = list(task), []
    browser.open(OTHER + "/")
    time.sleep(0.5)
    click_in_frame(browser)
    for _ in range(200):
        if Pages.answers:
            return Pages.answers[0]
        time.sleep(0.05)
    return {"error": "no answer"}


def verdict(call):
    try:
        call()
        return "accepted"
    except Refused as refused:
        return refused.name


def client_data(answer):
    from garvoeng.forms import from_text
    return json.loads(from_text(answer["response"]["clientDataJSON"], "clientDataJSON"))


def tried(browser):
    name = browser.version
    alone, framed = Server("localhost", [SITE]), Server("localhost", [SITE], top_origins=["http://one.localhost:8202", OTHER])
    elsewhere, open_server = Server("localhost", [SITE], top_origins=["http://one.localhost:8202"]), Server("localhost", [SITE], profile="open")
    key = browser.authenticator(transport="internal")
    browser.open(SITE + "/")
    extensions = {"credProps": True, "credentialProtectionPolicy": "userVerificationOptional", "prf": {}, "largeBlob": {"support": "preferred"}}
    options, session = alone.register_begin(b"account 7", "ada", extensions=extensions)
    made = browser.run("create(values[0])", options)
    kept = {}

    def registers(server, session, answer):
        registered = server.register_complete(session, answer, is_registered=lambda _: False)
        kept[registered.credential.id] = registered.credential
        return registered

    def signs_in(server, session, answer):
        return server.authenticate_complete(session, answer, credential=kept.get)

    see(f"{name}: a registration that asks for extensions", verdict(lambda: registers(alone, session, made)), "accepted")
    print(f"        it says {made.get('results')}")
    options, session = alone.authenticate_begin(user=b"account 7", extensions={"prf": {}})
    answer = browser.run("get(values[0])", options)
    see(f"{name}: a sign-in on the site's own page", verdict(lambda: signs_in(alone, session, answer)), "accepted")
    options, session = alone.authenticate_begin(user=b"account 7")
    answer = in_frame(browser, "get", options)
    if "error" in answer:
        print(f"        {name} signs in in no frame of another site: {answer['error']}")
    else:
        said = client_data(answer)
        print(f"        in the frame it says crossOrigin {said.get('crossOrigin')}, topOrigin {said.get('topOrigin')}")
        names_top = said.get("topOrigin") == OTHER
        see(f"{name}: a frame of another site without leave", verdict(lambda: signs_in(alone, session, answer)), "W17")
        see(f"{name}: a frame of a site that is not named", verdict(lambda: signs_in(elsewhere, session, answer)), "W18")
        see(f"{name}: the open profile does not look at it", verdict(lambda: signs_in(open_server, session, answer)), "accepted")
        see(f"{name}: a frame of a site that is named{'' if names_top else ', which the browser does not tell'}",
            verdict(lambda: signs_in(framed, session, answer)), "accepted" if names_top else "W18")
    other = browser.authenticator(transport="usb")
    options, session = alone.register_begin(b"account 8", "eve")
    answer = in_frame(browser, "create", options)
    if "error" in answer:
        print(f"        {name} registers in no frame of another site: {answer['error']}")
    else:
        names_top = client_data(answer).get("topOrigin") == OTHER
        see(f"{name}: a registration in a frame without leave", verdict(lambda: registers(alone, session, answer)), "G17")
        see(f"{name}: a registration in a frame of a site that is named", verdict(lambda: registers(framed, session, answer)),
            "accepted" if names_top else "G18")
    browser.without(other)
    browser.open(SITE + "/")
    options, session = alone.authenticate_begin()
    answer = browser.run("Promise.race([get(values[0], 'conditional'), new Promise(done => setTimeout(() => done({error: 'nobody chose'}), 5000))])", options)
    if "error" in answer:
        print(f"        {name}, sign-in by conditional mediation: {answer['error']}")
    else:
        see(f"{name}: a sign-in by conditional mediation", verdict(lambda: signs_in(alone, session, answer)), "accepted")
    options, session = alone.register_begin(b"account 9", "bob", conditional=True)
    answer = browser.run("Promise.race([create(values[0], 'conditional'), new Promise(done => setTimeout(() => done({error: 'not done'}), 5000))])", options)
    if "error" in answer:
        print(f"        {name}, creation by conditional mediation: {answer['error']}")
    else:
        see(f"{name}: a creation by conditional mediation", verdict(lambda: registers(alone, session, answer)), "accepted")
    browser.without(key)


for port in (8201, 8202):
    threading.Thread(target=http.server.ThreadingHTTPServer(("127.0.0.1", port), Pages).serve_forever, daemon=True).start()
for kind, port in ((Chromium, 8203), (Firefox, 8204)):
    browser = kind(port)
    try:
        tried(browser)
    finally:
        browser.close()
print(f"{passed} passed, {failed} failed")
sys.exit(failed != 0)
