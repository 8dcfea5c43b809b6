"""A site in Starlette whose visitors sign in with passkeys: uvicorn passkey_site:app --port 8003"""
import sqlite3
from garvoeng import Server
from garvoeng.sql import SqlServer
from garvoeng.starlette import Passkeys
from starlette.applications import Starlette
from starlette.responses import HTMLResponse
from starlette.routing import Mount, Route

server = SqlServer(Server("localhost", ["http://localhost:8003"]), lambda: sqlite3.connect("site.sqlite", timeout=30))
server.prepare()
passkeys = Passkeys(server)


async def home(request):
    user = await passkeys.signed_in(request)
    return HTMLResponse(f"<p>{'Hello, ' + user.hex()[:8] if user else 'Nobody is signed in'}: <a href='/passkeys/'>passkeys</a></p>")


app = Starlette(routes=[Mount("/passkeys", passkeys), Route("/", home)])
