"""A site in aiohttp whose visitors sign in with passkeys: python passkey_site.py"""
import sqlite3
from garvoeng import Server
from garvoeng.sql import SqlServer
from garvoeng.aiohttp import Passkeys
from aiohttp import web

server = SqlServer(Server("localhost", ["http://localhost:8080"]), lambda: sqlite3.connect("site.sqlite", timeout=30))
server.prepare()
passkeys = Passkeys(server)


async def home(request):
    user = await passkeys.signed_in(request)
    text = f"<p>{'Hello, ' + user.hex()[:8] if user else 'Nobody is signed in'}: <a href='/passkeys/'>passkeys</a></p>"
    return web.Response(text=text, content_type="text/html")


app = web.Application()
app.add_subapp("/passkeys/", passkeys.app)
app.router.add_get("/", home)
web.run_app(app, host="localhost", port=8080)
