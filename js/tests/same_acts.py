"""The acts of Python's web core (python/tests/acts.py) at sites in JavaScript: same_acts.py FOLDER, which has sites.mjs. Each act is what
visitors do; it knows no framework, and no language. Frameworks that are not here are named. The last line is 'N passed, M failed'."""
import http.client
import json
import subprocess
import sys
import time
import traceback
from types import SimpleNamespace

from acts import ACTS
from web_core import asking

SITES = [("fetch", storage) for storage in ("memory", "program", "postgres")] + [(name, "memory") for name in (
    "node:http", "express", "express with parsers of other bodies", "express5", "koa", "koa with koa-bodyparser", "fastify", "hono", "what is asked of Koa",
    "what is asked of Fastify")]

node = subprocess.Popen(["node", "sites.mjs"], cwd=sys.argv[1], stdin=subprocess.PIPE, stdout=subprocess.PIPE, text=True)


def asked(**line):
    node.stdin.write(json.dumps(line) + "\n")
    node.stdin.flush()
    return json.loads(node.stdout.readline())


class Server:
    def __init__(self, site):
        self.site = site

    def told(self, call, *words):
        return asked(site=self.site, call=call, words=[word.hex() for word in words])["told"]

    def rows(self, *user):
        return [SimpleNamespace(**{**row, "id": bytes.fromhex(row["id"])}) for row in self.told("rows", *user)]

    def retire(self, identity, user):
        return self.told("retire", identity, user)

    def delete(self, identity, user):
        return self.told("delete", identity, user)

    def erase(self, user):
        return self.told("erase", user)


class Site:
    has_cookies = has_page = True
    now = staticmethod(time.time)

    def __init__(self, name, made):
        self.name, self.port, self.server = name, made["port"], Server(made["site"])

    def send(self, method, path, headers, body):
        connection = http.client.HTTPConnection("localhost", self.port, timeout=60)
        try:
            connection.request(method, path, body, headers)
            answer = connection.getresponse()
            return answer.status, answer.getheaders(), answer.read()
        finally:
            connection.close()

    def visitor(self, jar=()):
        return asking(lambda method, path, headers, body: self.send(method, f"/passkeys/{path}", headers, body), dict(jar))

    def who(self, visitor):
        status, said = asking(self.send, dict(visitor.jar))("/who")
        assert status == 200, said
        return bytes.fromhex(said.decode()) or None


passed = failed = 0
for name, storage in SITES:
    for act in ACTS:
        made = asked(make=name, storage=storage)
        if "missing" in made:
            print(f"{name}: the package {made['missing']} is not here")
            break
        try:
            act(Site(name, made))
            passed += 1
        except Exception:
            failed += 1
            print(f"FAILED: {name} over {storage}, {act.__name__}")
            traceback.print_exc(limit=-2, file=sys.stdout)
        asked(site=made["site"], end=True)
node.stdin.close()
node.wait()
print(f"{passed} passed, {failed} failed")
sys.exit(failed != 0)
