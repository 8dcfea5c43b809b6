"""Headless browsers with virtual authenticators: Chromium through its WebDriver (Debian's chromium and chromium-driver), Firefox through
Marionette (Debian's firefox-esr). Both have the same methods."""
import base64
import json
import os
import shutil
import socket
import subprocess
import tempfile
import time
import urllib.request
from pathlib import Path

AUTHENTICATOR = {"protocol": "ctap2_1", "transport": "usb", "hasResidentKey": True, "hasUserVerification": True,
                 "isUserConsenting": True, "isUserVerified": True}
SCRIPT = ("const [values, done] = arguments;"
          "(async () => {script})().then(done, error => done({{error: error.error || String(error)}}));")


class Chromium:
    def __init__(self, port: int, headless: bool = True) -> None:
        self.port = port
        self.driver = subprocess.Popen(["chromedriver", f"--port={port}"], stdout=subprocess.PIPE, text=True)
        for line in self.driver.stdout:
            if "started successfully" in line:
                break
        begun = self._ask("/session", {"capabilities": {"alwaysMatch": {"browserName": "chrome", "goog:chromeOptions": {
            "args": [*(["--headless=new"] if headless else ["--no-first-run", "--window-position=0,0"]), "--no-sandbox", "--window-size=800,500"]}}}})
        self.path = "/session/" + begun["sessionId"]
        self.version = "Chromium " + begun["capabilities"]["browserVersion"]

    def _ask(self, path, body=None, method="POST"):
        data = None if body is None else json.dumps(body).encode()
        url = f"http://localhost:{self.port}{path}"
        with urllib.request.urlopen(urllib.request.Request(url, data, {"Content-Type": "application/json"}, method=method), timeout=60) as answer:
            return json.load(answer)["value"]

    def open(self, url):
        self._ask(self.path + "/url", {"url": url})

    def run(self, script, *values):
        """The value of a JavaScript expression, awaited, or an error's text if it throws. In it, `values` are the other arguments."""
        return self._ask(self.path + "/execute/async", {"args": [list(values)], "script": SCRIPT.format(script=script)})

    def authenticator(self, **more):
        return self._ask(self.path + "/webauthn/authenticator", {**AUTHENTICATOR, **more})

    def verifies(self, authenticator, is_verified):
        """Whether the authenticator's user passes verification from now on."""
        self._ask(f"{self.path}/webauthn/authenticator/{authenticator}/uv", {"isUserVerified": is_verified})

    def credentials(self, authenticator):
        return self._ask(f"{self.path}/webauthn/authenticator/{authenticator}/credentials", method="GET")

    def without(self, authenticator):
        self._ask(f"{self.path}/webauthn/authenticator/{authenticator}", method="DELETE")

    def picture(self, file: Path):
        file.write_bytes(base64.b64decode(self._ask(self.path + "/screenshot", method="GET")))

    def close(self):
        try:
            self._ask(self.path, method="DELETE")
        finally:
            self.driver.kill()
            self.driver.wait()


class Firefox:
    def __init__(self, port: int) -> None:
        self.folder = tempfile.mkdtemp()
        Path(self.folder, "user.js").write_text(
            f'user_pref("marionette.port", {port});\nuser_pref("security.webauth.webauthn_enable_softtoken", true);\n'
            'user_pref("security.webauth.webauthn_enable_usbtoken", false);\n')
        self.driver = subprocess.Popen(
            ["firefox-esr", "--headless", "--marionette", "--no-remote", "--profile", self.folder], stdout=subprocess.DEVNULL,
            stderr=subprocess.DEVNULL, env={**os.environ, "HOME": self.folder})
        for _ in range(600):
            try:
                self.socket = socket.create_connection(("127.0.0.1", port), timeout=60)
                break
            except OSError:
                time.sleep(0.1)
        self.file = self.socket.makefile("rwb")
        self.number = 0
        self._answer()
        begun = self._ask("WebDriver:NewSession", capabilities={})
        self.version = "Firefox " + begun["capabilities"]["browserVersion"]

    def _answer(self):
        size = b""
        while (byte := self.file.read(1)) != b":":
            size += byte
        return json.loads(self.file.read(int(size)))

    def _ask(self, command, **words):
        self.number += 1
        line = json.dumps([0, self.number, command, words]).encode()
        self.file.write(str(len(line)).encode() + b":" + line)
        self.file.flush()
        _, _, error, value = self._answer()
        if error is not None:
            raise RuntimeError(error)
        return value["value"] if isinstance(value, dict) and set(value) == {"value"} else value

    def open(self, url):
        self._ask("WebDriver:Navigate", url=url)

    def run(self, script, *values):
        return self._ask("WebDriver:ExecuteAsyncScript", script=SCRIPT.format(script=script), args=[list(values)])

    def authenticator(self, **more):
        return self._ask("WebAuthn:AddVirtualAuthenticator", **{**AUTHENTICATOR, **more})

    def verifies(self, authenticator, is_verified):
        self._ask("WebAuthn:SetUserVerified", authenticatorId=authenticator, isUserVerified=is_verified)

    def credentials(self, authenticator):
        return self._ask("WebAuthn:GetCredentials", authenticatorId=authenticator)

    def without(self, authenticator):
        self._ask("WebAuthn:RemoveVirtualAuthenticator", authenticatorId=authenticator)

    def picture(self, file: Path):
        file.write_bytes(base64.b64decode(self._ask("WebDriver:TakeScreenshot", full=False)))

    def close(self):
        self.driver.kill()
        self.driver.wait()
        shutil.rmtree(self.folder, ignore_errors=True)


def attended(kind, port, act):
    """Runs an act with its own headless browser and returns its result. If the browser never answers an order of its driver, the act is
    tried once more, with another browser, and that is reported."""
    for is_last in (False, True):
        browser = kind(port)
        try:
            return act(browser)
        except TimeoutError:
            if is_last:
                raise
            print(f"{browser.version} did not answer: once more")
        finally:
            browser.close()
