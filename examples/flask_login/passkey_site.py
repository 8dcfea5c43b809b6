"""A site in Flask whose users are managed by Flask-Login and sign in with passkeys: flask --app passkey_site run --port 5002"""
import os
import sqlite3
from garvoeng import Server
from garvoeng.sql import SqlServer
from garvoeng.flask import LoginAccounts, passkeys
from garvoeng.web import Denied
from flask import Flask
from flask_login import LoginManager, UserMixin, current_user

app = Flask(__name__)
app.secret_key = os.environ.get("SECRET", "a secret of your own")
app.config["SESSION_COOKIE_SAMESITE"] = "Lax"
server = SqlServer(Server("localhost", ["http://localhost:5002"]), lambda: sqlite3.connect("site.sqlite", timeout=30))
server.prepare()
with server.transaction() as rows:
    rows.run("create table if not exists user (name text primary key, handle blob not null unique)")


class User(UserMixin):
    def __init__(self, name, handle):
        self.id, self.handle = name, handle


def found(column, value):
    with server.transaction(writes=False) as rows:
        row = rows.run(f"select name, handle from user where {column} = ?", value).fetchone()
    return None if row is None else User(*row)


def make(name, handle):
    if found("name", name):
        raise Denied("the name is another account's", 409)
    with server.transaction() as rows:
        rows.run("insert into user values (?, ?)", name, handle)


LoginManager(app).user_loader(lambda name: found("name", name))
users = LoginAccounts(lambda user: user.handle, lambda handle: found("handle", handle), make, lambda user: user.id)
app.register_blueprint(passkeys(server, accounts=users), url_prefix="/passkeys")


@app.get("/")
def home():
    return f"<p>{'Hello, ' + current_user.id if current_user.is_authenticated else 'Nobody is signed in'}: <a href='/passkeys/'>passkeys</a></p>"
