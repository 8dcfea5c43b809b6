"""Runs table.mjs in a headless browser: browsers.py Chromium|Firefox FOLDER, whose files passkey.wasm, table.wasm and table.mjs
it serves on localhost. Prints what the table says."""
import functools
import http.server
import sys
import threading
from pathlib import Path

sys.path.insert(0, str(Path(__file__).resolve().parents[2] / "examples" / "site"))
import browser  # noqa: E402

READ = "(await Promise.all(['passkey.wasm', 'table.wasm'].map(async name => (await fetch(name)).arrayBuffer())))"


class Files(http.server.SimpleHTTPRequestHandler):
    extensions_map = {**http.server.SimpleHTTPRequestHandler.extensions_map, ".mjs": "text/javascript", ".wasm": "application/wasm"}

    def log_message(self, *_):
        pass


kind, folder = sys.argv[1:]
served = http.server.ThreadingHTTPServer(("localhost", 0), functools.partial(Files, directory=folder))
threading.Thread(target=served.serve_forever, daemon=True).start()
opened = getattr(browser, kind)(served.server_port + 1)
try:
    opened.open(f"http://localhost:{served.server_port}/")
    print(opened.run(f"(await import('/table.mjs')).run(...{READ})"), end="")
    print(opened.version, file=sys.stderr)
finally:
    opened.close()
