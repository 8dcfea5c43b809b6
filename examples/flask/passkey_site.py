"""A site in Flask whose visitors sign in with passkeys: flask --app passkey_site run"""
import sqlite3
from garvoeng import Server
from garvoeng.sql import SqlServer
from garvoeng.flask import passkeys, signed_in
from flask import Flask

app = Flask(__name__)
server = SqlServer(Server("localhost", ["http://localhost:5000"]), lambda: sqlite3.connect("site.sqlite", timeout=30))
server.prepare()
app.register_blueprint(passkeys(server), url_prefix="/passkeys")


@app.get("/")
def home():
    user = signed_in()
    return f"<p>{'Hello, ' + user.hex()[:8] if user else 'Nobody is signed in'}: <a href='/passkeys/'>passkeys</a></p>"
