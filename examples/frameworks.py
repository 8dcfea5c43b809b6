"""The program of examples/frameworks, in a folder with a copy of what START.md names: frameworks.py PICTURES."""
import os
import re
import shutil
import subprocess
import sys
import time
import urllib.request
from pathlib import Path

HERE = Path(__file__).resolve().parent
TOP = HERE.parent
sys.path.insert(0, str(HERE / "site"))
from browser import Chromium  # noqa: E402

# Debian's packages stand in place of registries' that are not reached.
ENVIRONMENT = {**os.environ, "PATH": "/usr/bin:/bin:" + os.environ["PATH"], "PYTHONPATH": "/usr/lib/python3/dist-packages", "PIP_NO_INDEX": "1",
               "PIP_NO_BUILD_ISOLATION": "0", "PIP_NO_DEPS": "1", "NODE_PATH": "/usr/share/nodejs", "npm_config_offline": "true", "npm_config_audit": "false",
               "npm_config_update_notifier": "false", "GO111MODULE": "off", "GOCACHE": str(TOP / "go-cache"), "HOME": str(TOP)}
# The port of each way of START.md, and the way whose page is photographed.
PORTS = {"Flask": 5000, "Django": 8000, "FastAPI": 8001, "Express": 3000, "any language: Go": 8080}
PHOTOGRAPHED = "Flask"
# Those that START.md does not name: the file, its port and its commands.
OTHERS = (
    ("flask_login", "passkey_site.py", 5002, "V/bin/python -m flask --app passkey_site run --port 5002"),
    ("rest", "manage.py", 8002, "V/bin/python manage.py migrate && V/bin/python manage.py runserver localhost:8002"),
    ("starlette", "passkey_site.py", 8003, "V/bin/python -m uvicorn passkey_site:app --port 8003"),
    ("aiohttp", "passkey_site.py", 8080, "V/bin/python passkey_site.py"),
)
ROW = re.compile(r"^\| ([^|]+) \| ([^|]+) \| \[`([^`]+)`\]\(([^)]+)\) \| `([^|]+)` \|$", re.MULTILINE)
SCREEN = "-screen 0 800x500x24"
# What a page of the site's own asks of other addresses than the script's.
ELSEWHERE = """(async () => {
  const said = async (path, body) => {
    const { header, token } = await (await fetch(`/api/passkeys/token`)).json();
    const answer = await fetch(`/api/passkeys/${path}`, { method: 'POST', headers: { 'Content-Type': 'application/json', [header]: token }, body: JSON.stringify(body) });
    return { status: answer.status, ...await answer.json() };
  };
  const { status, ...options } = await said('sign-in/begin', {});
  const response = await navigator.credentials.get({ publicKey: PublicKeyCredential.parseRequestOptionsFromJSON(options) });
  const first = await said('sign-in/finish', response.toJSON()), second = await said('sign-in/finish', response.toJSON());
  return [status, first.status, second.refusal, (await (await fetch('/api/passkeys/list')).json()).length];
})()"""
SAID = "document.getElementById('said').textContent"
passed = failed = 0


def see(what, is_so):
    global passed, failed
    passed, failed = passed + bool(is_so), failed + (not is_so)
    print(("ok      " if is_so else "FAILED  ") + what, flush=True)


def clicked(browser, button, wanted):
    """Whether the page shows this after a click."""
    browser.run(f"({SAID} = '', document.getElementById('{button}').click())")
    for _ in range(100):
        if browser.run(SAID) == wanted:
            return True
        time.sleep(0.05)
    print("        the page says", browser.run(SAID))
    return False


def ways():
    """The ways in START.md, each with its installation, site and command as printed there."""
    first = None
    for name, install, file, path, run in ROW.findall((TOP / "START.md").read_text()):
        if install.startswith("the same with "):
            install = first.replace(" flask", " " + install.removeprefix("the same with ").strip("`"))
        elif name == "Flask":
            first = install = install.strip("`")
        yield name, "true" if install == "nothing" else install.strip("`"), file, path, PORTS[name], run


def others():
    for name, file, port, run in OTHERS:
        yield name, "python3 -m venv V && V/bin/pip install ../python", file, f"examples/{name}/{file}", port, run


def installed(folder, command):
    """Runs the installation. npm has no registry here, so Debian's Express takes its place."""
    command = command.replace(".tgz express", ".tgz")
    return subprocess.run(["bash", "-c", command], cwd=folder, env=ENVIRONMENT, stdout=subprocess.DEVNULL).returncode == 0


def is_up(url):
    for _ in range(600):
        try:
            urllib.request.urlopen(url).close()
            return True
        except OSError:
            time.sleep(0.1)
    return False


def acts(name, browser, port, pictures):
    """Everything that a visitor of the web core can do."""
    browser.run("document.getElementById('name').value = 'ada'")
    if pictures:
        browser.picture(pictures / "page.png")
    see(f"{name}: a passkey is registered", clicked(browser, "register", "registered"))
    see(f"{name}: its list has it", len(browser.run("passkeys.list()")) == 1)
    see(f"{name}: it is called something", browser.run("passkeys.list().then(([{ id }]) => passkeys.rename(id, 'blue'))") == {"renamed": True})
    see(f"{name}: and is so in the list", [row["name"] for row in browser.run("passkeys.list()")] == ["blue"])
    see(f"{name}: the visitor signs in afresh", "user" in browser.run("passkeys.signIn({ again: true })"))
    see(f"{name}: a second passkey of the same authenticator is none", "error" in browser.run("passkeys.register('ada')"))
    see(f"{name}: the visitor signs out", clicked(browser, "sign-out", "signed out"))
    see(f"{name}: the list is nobody's", "nobody" in browser.run("passkeys.list()")["error"])
    see(f"{name}: the visitor signs in", clicked(browser, "sign-in", "signed in"))
    if pictures:
        browser.picture(pictures / "signed_in.png")
    if name == "rest":
        see(f"{name}: by its own addresses, once", browser.run(ELSEWHERE) == [200, 200, "W1", 1])
    browser.open(f"http://localhost:{port}/")
    see(f"{name}: the site knows who it is", "Nobody" not in browser.run("document.body.textContent"))
    browser.open(f"http://localhost:{port}/passkeys/")
    browser.run("passkeys.list().then(listed => passkeys.retire(listed[0].id))")
    clicked(browser, "sign-out", "signed out")
    see(f"{name}: a retired passkey signs in no more",
        clicked(browser, "sign-in", "W3 UnknownCredential: no credential with this id is registered"))


def fills(name, browser, page):
    """The page offers autofill while nobody is signed in: Chromium's virtual authenticator takes it at once if it is the machine's own."""
    key = browser.authenticator(transport="internal")
    browser.open(page)
    browser.run("document.getElementById('name').value = 'eve'")
    see(f"{name}: a passkey for autofill", clicked(browser, "register", "registered"))
    see(f"{name}: autofill signs in", clicked(browser, "sign-out", "signed in"))
    browser.without(key)


def acts_over_lines(name, browser):
    """Everything that a visitor of the sample over lines does."""
    for button in ("registration", "sign_in"):
        browser.run(f"({SAID} = '', document.getElementById('{button}').click())")
        see(f"{name}: {button}", any("credential" in browser.run(SAID) or time.sleep(0.05) for _ in range(100)))


def prompted(port, picture):
    """Photographs the browser's prompt, in its own window, without an authenticator."""
    script = Path("prompt.py")
    script.write_text(f"""import os, subprocess, sys, time
sys.path.insert(0, {str(HERE / "site")!r})
from browser import Chromium
browser = Chromium({port + 2}, headless=False)
browser.open("http://localhost:{port}/passkeys/")
browser.run("(document.getElementById('name').value = 'ada', document.getElementById('register').click())")
time.sleep(5)
subprocess.run(["import", "-window", "root", {str(picture)!r}], timeout=20)
browser.driver.kill()
""")
    done = subprocess.Popen(["timeout", "-k", "5", "60", "xvfb-run", "-a", "-s", SCREEN, sys.executable, str(script)], stdout=subprocess.DEVNULL,
                            stderr=subprocess.DEVNULL, start_new_session=True)
    done.wait()
    subprocess.run(["pkill", "-g", str(done.pid)], check=False)


def tried(name, install, file, path, port, run, pictures):
    began, folder = time.time(), TOP / re.sub(r"\W", "-", name)
    folder.mkdir()
    see(f"{name}: it is installed", installed(folder, install))
    shutil.copy(TOP / path, folder / file)
    site = subprocess.Popen(["bash", "-c", run], cwd=folder, env=ENVIRONMENT, stdout=subprocess.DEVNULL, stderr=subprocess.DEVNULL, start_new_session=True)
    browser, has_core = None, not file.endswith(".go")
    page = f"http://localhost:{port}/" + ("passkeys/" if has_core else "")
    try:
        see(f"{name}: it runs", is_up(page))
        browser = Chromium(port + 1)
        browser.open(page)
        key = browser.authenticator(transport="usb")
        if has_core:
            acts(name, browser, port, pictures)
        else:
            acts_over_lines(name, browser)
        print(f"        {time.time() - began:.1f} s from an empty folder")
        browser.without(key)
        if has_core:
            fills(name, browser, page)
        if pictures:
            prompted(port, pictures / "prompt.png")
    finally:
        if browser is not None:
            browser.close()
        os.killpg(site.pid, 15)
        site.wait()


def main():
    pictures = Path(sys.argv[1]).resolve()
    pictures.mkdir(parents=True, exist_ok=True)
    listed = [*ways(), *others()]
    see("START.md has five ways", [way[0] for way in listed[:5]] == list(PORTS))
    for way in listed:
        tried(*way, pictures if way[0] == PHOTOGRAPHED else None)
    for name in ("page.png", "prompt.png", "signed_in.png"):
        see(f"{name} is a picture", (pictures / name).is_file() and (pictures / name).stat().st_size > 2000)
    print(f"{passed} passed, {failed} failed")
    sys.exit(failed != 0)


if __name__ == "__main__":
    main()
