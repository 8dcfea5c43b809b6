"""`garvoeng.flask`: its cookies, how often it is asked, and what a site does around it."""
import threading

import pytest
from device import Device
from web_core import ORIGIN, device, later, signed_in
from web_sites import FlaskSite, flask, posted, registered

from garvoeng import BadInput, RateLimit, pages
from garvoeng.forms import to_text


def test_a_body_without_a_length(tmp_path):
    """No more of it is read than a request may have."""
    site = FlaskSite(tmp_path)

    class Endless:
        taken = 0

        def read(self, size=-1):
            assert size >= 0 and self.taken < 1_000_000
            self.taken += size
            return b"[" * size

        def readline(self, size=-1):
            return self.read(size)

    body = Endless()
    said = site.app.test_client().open("/passkeys/sign-in/begin", method="POST", environ_overrides={
        "wsgi.input": body, "wsgi.input_terminated": True, "CONTENT_TYPE": "application/json", "HTTP_TRANSFER_ENCODING": "chunked"})
    assert said.status_code == 400 and said.get_json() == {"error": "the body is too long"}


def test_cookies_of_flask(tmp_path):
    """By https with __Host- and Secure, by http without; HttpOnly and SameSite=Lax both, of no domain, and for the whole host."""
    for number, (origins, front) in enumerate((([ORIGIN], ""), (["https://localhost"], "__Host-"), ([ORIGIN, "https://localhost"], "__Host-"))):
        (tmp_path / str(number)).mkdir()
        site = FlaskSite(tmp_path / str(number), origins)
        visitor, key = site.visitor(), Device(rp_id="localhost", origin=origins[-1])
        _, options = visitor("register/begin", {"name": "ada"})
        seen = visitor.cookies
        visitor("register/finish", key.register(options))
        seen += visitor.cookies
        visitor("sign-in/begin", {})
        seen += visitor.cookies
        visitor("sign-out", {})
        seen += visitor.cookies
        names = {line.split("=")[0] for line in seen}
        assert names == {front + name for name in ("garvoeng", "garvoeng_registration", "garvoeng_sign_in")} and len(seen) == 7
        for line in seen:
            attributes = {part.strip().split("=")[0] for part in line.split(";")[1:]}
            assert {"HttpOnly", "Path", "SameSite"} <= attributes and "Domain" not in attributes
            assert "Path=/" in line.split("; ") and "SameSite=Lax" in line.split("; ") and ("Secure" in attributes) == bool(front)
            assert len(line.split(";")[0].split("=")[1]) in (0, 95 if "registration" in line else 32)
        for path, varies in (("/who", "Cookie"), ("/passkeys/", None)):
            assert posted(site.app.test_client(use_cookies=False), visitor.jar, path, None).headers.get("Vary") == varies
        plain = site.visitor({"garvoeng": site.server.keep_sign_in(b"account 7")})
        assert plain("list")[0] == (401 if front else 200)


def test_hostile_cookies(tmp_path, caplog):
    site = FlaskSite(tmp_path)
    visitor, key = site.visitor(), device()
    registered(visitor, key)
    _, options = visitor("sign-in/begin", {})
    taken = visitor.jar["garvoeng_sign_in"]
    for value in ("", "0" * 32, "A" * 32, taken, taken.upper(), taken[:-1], "%00", "' or 1=1 --", "x" * 4_000, to_text(key.user), "\udcff"):
        stranger = site.visitor({"garvoeng": value, "garvoeng_registration": value, "garvoeng_sign_in": "x" + value})
        assert stranger("list")[0] == 401 and stranger.who() == ""
        assert stranger("register/finish", device(b"x").register(options))[0] == 403
        assert stranger("sign-in/finish", key.sign_in(options, user=key.user))[0] == 403
    site.run("update garvoeng_session set data = replace(data, '\"signed_in\": ', '\"signed_in\": \"\", \"x\": ')")
    assert visitor("list")[0] == 401 and "is damaged" in caplog.text and visitor.jar["garvoeng"] not in caplog.text


def test_how_long_a_visitor_is_signed_in(tmp_path, monkeypatch):
    site = FlaskSite(tmp_path, fresh=100, signed_in_for=1000)
    visitor = site.visitor()
    registered(visitor, device())
    for ahead, listed, begun in ((50, 200, 200), (150, 200, 401), (900, 200, 401), (1001, 401, 200)):
        later(monkeypatch, ahead)
        assert (visitor("list")[0], visitor("register/begin", {"name": "ada"})[0]) == (listed, begun)


def test_a_hook_that_reads_the_body(tmp_path):
    """As loggers do: the body is there for the blueprint, and the limit stays."""
    site, seen = FlaskSite(tmp_path), []
    site.app.before_request(lambda: seen.append(len(flask.request.get_data())))
    visitor, key = site.visitor(), device()
    assert registered(visitor, key)[0] == 200 and signed_in(visitor, key)[1][0] == 200 and visitor("sign-out", {})[0] == 200
    assert all(seen)
    assert visitor("sign-out", raw=b'{"a":"' + b"A" * 140_000 + b'"}') == (400, {"error": "the body is too long"})
    chunked = {"environ_overrides": {"wsgi.input_terminated": True, "HTTP_TRANSFER_ENCODING": "chunked", "CONTENT_LENGTH": ""}}
    assert visitor("sign-out", {}, **chunked)[0] == 200
    assert visitor("sign-out", raw=b'{"a":"' + b"A" * 140_000 + b'"}', **chunked)[0] == 400
    after = FlaskSite(tmp_path)
    after.app.after_request(lambda response: (seen.append(flask.request.get_data()), response)[1])
    assert after.visitor()("sign-out", {})[0] == 200 and seen[-1] == b"{}"


def test_one_blueprint(tmp_path):
    from garvoeng.flask import passkeys, signed_in
    site = FlaskSite(tmp_path)
    with pytest.raises(RuntimeError, match="one blueprint"):
        site.app.register_blueprint(passkeys(site.server, "other"), url_prefix="/other")
    with flask.Flask("other").test_request_context(), pytest.raises(RuntimeError, match="no blueprint"):
        signed_in()


class Clock:
    now = 0.0

    def __call__(self):
        return self.now


def test_the_limit_of_requests():
    """Tokens by address: a burst, then the rate; by 64 bits of IPv6; none for this machine, and for a host's own words."""
    clock = Clock()
    limit = RateLimit(2.0, 3, addresses=2, clock=clock)
    assert [limit("192.0.2.1") for _ in range(5)] == [0, 0, 0, 1, 1]
    clock.now = 0.4
    assert limit("192.0.2.1") == 1
    clock.now = 0.5
    assert [limit("192.0.2.1"), limit("192.0.2.1")] == [0, 1]
    clock.now = 100.0
    assert [limit("192.0.2.1") for _ in range(4)] == [0, 0, 0, 1], "no more than a burst"
    clock.now = 50.0
    assert limit("192.0.2.1") == 1, "a clock that goes back gives nothing"
    assert [limit(f"2001:db8::{number:x}") for number in range(4)] == [0, 0, 0, 1]
    assert limit("2001:db8:0:0:ffff::1") == 1 and limit("2001:db8:0:1::1") == 0
    assert [limit("::ffff:192.0.2.9"), limit("192.0.2.9"), limit("::ffff:192.0.2.9"), limit("192.0.2.9")] == [0, 0, 0, 1]
    for own in ("127.0.0.1", "127.1.2.3", "::1", "::ffff:127.0.0.1", "", None):
        assert {limit(own) for _ in range(20)} == {0}
    assert [limit("visitor 7") for _ in range(4)] == [0, 0, 0, 1]
    for wrong in ({"rate": 0}, {"burst": -1}, {"rate": True}, {"burst": "3"}, {"addresses": 0}, {"rate": float("nan")}, {"rate": float("inf")}):
        with pytest.raises(BadInput):
            RateLimit(**wrong)


def test_the_limit_under_threads():
    """No more are let through than there are tokens."""
    limit, passed = RateLimit(1e-9, 100), []
    threads = [threading.Thread(target=lambda: passed.extend(limit("192.0.2.1") for _ in range(50))) for _ in range(8)]
    for thread in threads:
        thread.start()
    for thread in threads:
        thread.join()
    assert passed.count(0) == 100 and len(passed) == 400


def test_flask_limits_requests(tmp_path):
    """By default; an address of another visitor's is not concerned, nor is what is only read."""
    limit = pages.limit_of(None)
    assert (limit.rate, limit.burst, limit.addresses) == (5, 50, 10_000)
    limit._clock = Clock()
    site = FlaskSite(tmp_path, rate_limit=limit)
    ask = site.visitor()
    one, two = {"environ_overrides": {"REMOTE_ADDR": "192.0.2.1"}}, {"environ_overrides": {"REMOTE_ADDR": "192.0.2.2"}}
    assert [ask("sign-in/begin", {}, **one)[0] for _ in range(60)] == [200] * 50 + [429] * 10
    said = posted(site.app.test_client(use_cookies=False), {}, "/passkeys/sign-in/begin", "{}", **one)
    assert said.status_code == 429 and int(said.headers["Retry-After"]) == 1 and said.get_json() == {"error": "too many requests: try again later"}
    assert ask("sign-in/begin", {}, **two)[0] == 200 and ask("list", None, **one)[0] == 401
    (tmp_path / "default").mkdir()
    ask = FlaskSite(tmp_path / "default").visitor()
    assert 429 in (ask("sign-in/begin", {}, **one)[0] for _ in range(2_000))


def test_what_limits(tmp_path):
    """None where the site says so, or the site's own; what is none is told."""
    for number, (limit, wanted) in enumerate(((False, [200] * 60), (lambda address: 7, [429] * 60), (lambda address: 0, [200] * 60))):
        (tmp_path / str(number)).mkdir()
        ask = FlaskSite(tmp_path / str(number), rate_limit=limit).visitor()
        assert [ask("sign-in/begin", {}, environ_overrides={"REMOTE_ADDR": "192.0.2.1"})[0] for _ in range(60)] == wanted
    with pytest.raises(BadInput):
        FlaskSite(tmp_path, rate_limit=5)

    async def later(address):
        return 0

    for number, wrong in enumerate((lambda address: None, lambda address: True, lambda address: -1, lambda address: 1.5, later)):
        (tmp_path / f"wrong {number}").mkdir()
        site = FlaskSite(tmp_path / f"wrong {number}", rate_limit=wrong)
        assert site.visitor()("sign-in/begin", {})[0] == 500


def test_who_asks_in_one_request(tmp_path):
    """Who is looked up once for a request is nobody from its sign-out on, by an act and by the site's own."""
    from garvoeng.flask import end, signed_in as who
    site, key, seen = FlaskSite(tmp_path), device(), []
    site.app.get("/bye", endpoint="bye")(lambda: str([who() is not None, end(), who()]))
    site.app.before_request(lambda: seen.append(who()))
    site.app.after_request(lambda response: (seen.append(who()), response)[1])
    visitor = site.visitor()
    registered(visitor, key)
    kept = visitor.copied()
    assert posted(site.app.test_client(use_cookies=False), kept.jar, "/bye", None).get_data(as_text=True) == "[True, None, None]"
    assert signed_in(visitor, key)[1][0] == 200
    seen.clear()
    assert visitor("sign-out", {})[0] == 200 and seen == [key.user, None]
