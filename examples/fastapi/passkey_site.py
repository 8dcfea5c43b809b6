"""A site in FastAPI whose visitors sign in with passkeys: uvicorn passkey_site:app --port 8001"""
import sqlite3
from typing import Optional
from garvoeng import Server
from garvoeng.sql import SqlServer
from garvoeng.starlette import Passkeys
from fastapi import Depends, FastAPI
from fastapi.responses import HTMLResponse

app = FastAPI()
server = SqlServer(Server("localhost", ["http://localhost:8001"]), lambda: sqlite3.connect("site.sqlite", timeout=30))
server.prepare()
passkeys = Passkeys(server)
app.mount("/passkeys", passkeys)


@app.get("/", response_class=HTMLResponse)
async def home(user: Optional[bytes] = Depends(passkeys.signed_in)) -> str:
    return f"<p>{'Hello, ' + user.hex()[:8] if user else 'Nobody is signed in'}: <a href='/passkeys/'>passkeys</a></p>"
