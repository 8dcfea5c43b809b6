"""visit.py PROGRAM: a registration and a sign-in at the sample, by a device that cryptography plays; responses that are sent twice, of another
session or changed are refused."""
import json
import socket
import subprocess
import sys
import time
import urllib.error
import urllib.request
from http.cookiejar import CookieJar

from device import Device

with socket.socket() as free:
    free.bind(("localhost", 0))
    PORT = free.getsockname()[1]
SITE = f"http://localhost:{PORT}"


def browser():
    opener = urllib.request.build_opener(urllib.request.HTTPCookieProcessor(CookieJar()))

    def post(path, value, kind="application/json"):
        asked = urllib.request.Request(f"{SITE}/{path}", json.dumps(value).encode(), {"Content-Type": kind})
        try:
            with opener.open(asked, timeout=20) as answer:
                return json.load(answer)
        except urllib.error.HTTPError as refused:
            return refused.code

    return post


def visited():
    device, post, other = Device(rp_id="localhost", origin=SITE), browser(), browser()
    begun = post("register/begin", {})
    made = device.register(begun)
    other("register/begin", {})
    assert other("register/complete", made) == 400  # in another visitor's session
    user = post("register/complete", made)
    assert isinstance(user, str) and post("register/complete", made) == 400
    asked = post("sign-in/begin", {})
    signed = device.sign_in(asked, user=user.encode())
    changed = json.loads(json.dumps(signed))
    changed["response"]["signature"] = changed["response"]["signature"][:-2] + ("AA" if changed["response"]["signature"][-2:] != "AA" else "BA")
    assert post("sign-in/complete", signed, "text/plain") == 415
    assert other("sign-in/complete", signed) == 400
    assert post("sign-in/complete", changed) == 400 and post("sign-in/complete", signed) == 400  # the session has answered one response
    signed = device.sign_in(post("sign-in/begin", {}), user=user.encode())
    assert post("sign-in/complete", signed) == user and post("sign-in/complete", signed) == 400
    assert post("sign-in/complete", "x" * 200_000) == 413


with subprocess.Popen([sys.argv[1], f"localhost:{PORT}"], stderr=subprocess.DEVNULL) as program:
    try:
        for _ in range(100):
            try:
                urllib.request.urlopen(SITE, timeout=5).read()
                break
            except OSError:
                time.sleep(0.1)
        visited()
    finally:
        program.kill()
