"""A small site with passkeys: register, sign in, list, retire."""
from __future__ import annotations

import os
import secrets
import sys
from typing import Any, Dict, Optional, Tuple, Union

from accounts import Taken
from acts import acts_at
from flask import Flask, Response, jsonify, redirect, request, send_file, session as cookie
from garvoeng import BadInput, Refused, StoreFailed
from garvoeng.forms import from_text, to_text
from garvoeng.rate_limit import RateLimit
from werkzeug.wrappers import Response as AnyResponse

HERE = os.path.dirname(os.path.abspath(__file__))
MAX_BODY = 64 * 1024
"""The largest request of a visitor, in bytes."""
FRESH = 300
"""How many seconds after a sign-in a passkey may be added to the account."""
Answered = Union[Response, Tuple[Response, int]]


def body() -> Dict[str, Any]:
    """The JSON object in the request."""
    try:
        value = request.get_json(silent=True)
    except RecursionError:
        value = None
    if not isinstance(value, dict):
        raise BadInput("the body is no JSON object")
    return value


def name_in(said: Dict[str, Any]) -> str:
    """The account's name: up to 64 characters, empty for none."""
    name = said.get("name", "")
    if not isinstance(name, str) or len(name) > 64 or not name.isprintable():
        raise BadInput("a name has up to 64 characters that can be printed")
    return name


def site(address: str, origin: str, secret: bytes) -> Flask:
    """The site at this origin, with its rows at this address. All its processes have the same secret."""
    app = Flask(__name__)
    app.secret_key = secret
    app.config.update(SESSION_COOKIE_HTTPONLY=True, SESSION_COOKIE_SAMESITE="Strict", MAX_CONTENT_LENGTH=MAX_BODY,
                      SESSION_COOKIE_SECURE=origin.startswith("https:"))
    acts = acts_at(address, origin.split("//")[1].split(":")[0], origin, "A small site")

    limit = RateLimit()

    @app.before_request
    def limited() -> Optional[AnyResponse]:
        """Answers a visitor who posts too often, before any work is done."""
        wait = limit(request.remote_addr) if request.method == "POST" else 0
        if not wait:
            return None
        answer = jsonify(error="too many requests")
        answer.status_code, answer.headers["Retry-After"] = 429, str(wait)
        return answer

    def signed_in_user(fresh: Optional[int] = None) -> Optional[bytes]:
        return acts.signed_in(cookie.get("signed-in"), fresh)

    def begun_by() -> Optional[str]:
        """The number of the visitor's sign-in, if it is still valid."""
        return None if signed_in_user() is None else cookie["signed-in"]

    @app.get("/")
    def page() -> Response:
        return send_file(os.path.join(HERE, "page.html"))

    @app.post("/register/begin")
    def register_begin() -> Answered:
        said = body()
        name = name_in(said)
        if not name:
            raise BadInput("an account has a name")
        options, number = acts.register_begin(name, signed_in_user(FRESH), bool(said.get("verified")), bool(said.get("resident", True)))
        cookie["registration"], cookie["name"], cookie["begun-by"] = number, name, begun_by()
        return jsonify(options)

    @app.post("/register/finish")
    def register_finish() -> Answered:
        if cookie.get("begun-by") != begun_by():
            return jsonify(error="the sign-in that began this has ended"), 403
        user, id = acts.register_finish(cookie.get("registration"), cookie.get("name", ""), body())
        cookie.pop("registration", None)
        if signed_in_user() != user:
            cookie["signed-in"] = acts.sign_in(user, id)
        return jsonify(passkey=to_text(id))

    @app.post("/sign-in/begin")
    def sign_in_begin() -> Answered:
        said = body()
        begun = acts.sign_in_begin(name_in(said), bool(said.get("verified")))
        if begun is None:
            return jsonify(error="no account has this name"), 404
        options, cookie["sign-in"] = begun
        return jsonify(options)

    @app.post("/sign-in/finish")
    def sign_in_finish() -> Answered:
        user, id, count = acts.sign_in_finish(cookie.get("sign-in"), body())
        acts.sign_out(cookie.get("signed-in"))
        cookie["signed-in"] = acts.sign_in(user, id)
        return jsonify(user=to_text(user), count=count)

    @app.get("/passkeys")
    def passkeys() -> Answered:
        user = signed_in_user()
        if user is None:
            return jsonify(error="nobody is signed in"), 401
        return jsonify([{"id": to_text(row.id), "count": row.sign_count, "retired": row.retired} for row in acts.passkeys(user)])

    @app.post("/passkeys/retire")
    def retire() -> Answered:
        user = signed_in_user()
        if user is None:
            return jsonify(error="nobody is signed in"), 401
        return jsonify(retired=acts.retire(user, from_text(body().get("id"), "id")))

    @app.post("/sign-out")
    def sign_out() -> AnyResponse:
        acts.sign_out(cookie.get("signed-in"), cookie.get("registration"), cookie.get("sign-in"))
        cookie.clear()
        return redirect("/", 303)

    @app.errorhandler(Refused)
    def refused(error: Refused) -> Answered:
        return jsonify(error=str(error), refusal=error.name), 403

    @app.errorhandler(BadInput)
    def bad_input(error: BadInput) -> Answered:
        return jsonify(error=str(error)), 400

    @app.errorhandler(Taken)
    def taken(error: Taken) -> Answered:
        return jsonify(error=str(error)), 409

    @app.errorhandler(StoreFailed)
    def failed(error: Exception) -> Answered:
        return jsonify(error=str(error)), 503

    return app


def of_environment() -> Flask:
    """The site for a WSGI server, such as `gunicorn "app:of_environment()"`: ROWS is the address of its rows, ORIGIN its origin, SECRET the
    secret for its cookies, the same in each process."""
    return site(os.environ["ROWS"], os.environ["ORIGIN"], os.environ["SECRET"].encode())


if __name__ == "__main__":
    port = int(os.environ.get("PORT", "8080"))
    address = sys.argv[1] if len(sys.argv) > 1 else os.path.join(HERE, "site.sqlite")
    key = os.environ.get("SECRET", "").encode() or secrets.token_bytes(32)
    origin = os.environ.get("ORIGIN", f"http://localhost:{port}")
    site(address, origin, key).run("localhost", port, threaded=True)
