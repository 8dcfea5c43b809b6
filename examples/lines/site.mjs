// A whole site over the lines of site_program, in Node: node site.mjs PORT PROGRAM FILE OPTION.., for example
// node site.mjs 8080 dist/passkey-site site.db --rp-id localhost --origin http://localhost:8080
// Its page registers a passkey and signs in. A browser needs PublicKeyCredential.parseCreationOptionsFromJSON.
import { createHmac, createPublicKey, randomBytes, verify } from "node:crypto";
import { spawn } from "node:child_process";
import { createServer } from "node:http";
import { createInterface } from "node:readline";
import { pathToFileURL } from "node:url";

function isValid({ algorithm, x, y, message, signature }) {
  const bytes = text => Buffer.from(text, "base64url");
  const key = { "-7": { kty: "EC", crv: "P-256", x, y }, "-8": { kty: "OKP", crv: "Ed25519", x }, "-257": { kty: "RSA", n: x, e: y } }[algorithm];
  try {
    const hash = algorithm === -8 ? null : "sha256";
    return verify(hash, bytes(message), { key: createPublicKey({ key, format: "jwk" }), dsaEncoding: "der" }, bytes(signature));
  } catch {
    return false;
  }
}

export class Site {
  constructor(program, ...words) {
    Object.assign(this, { program, words, number: 0, running: null, timeout: 30_000 });
  }
  // Starts the program. If it ends, its open calls reject: they may or may not be done. The next call starts it again.
  start() {
    const running = spawn(this.program, this.words, { stdio: ["pipe", "pipe", "inherit"] });
    this.running = Object.assign(running, { asked: [] });
    createInterface({ input: running.stdout }).on("line", line => {
      const answer = JSON.parse(line);
      const { resolve, reject, timer } = running.asked.shift();
      clearTimeout(timer);
      if (!("failed" in answer)) return resolve(answer);
      running.kill("SIGKILL");
      reject(new Error(answer.failed));
    });
    const ended = () => {
      if (this.running === running) this.running = null;
      for (const { reject, timer } of running.asked.splice(0)) {
        clearTimeout(timer);
        reject(new Error("the program has ended"));
      }
    };
    running.on("error", ended).on("close", ended);
    running.stdin.on("error", () => running.kill("SIGKILL"));
    return running;
  }
  // Resolves to the answer to an act. Answers come in the order of the lines.
  ask(act, members = {}) {
    const running = this.running ?? this.start();
    return new Promise((resolve, reject) => {
      const timer = setTimeout(() => running.kill("SIGKILL"), this.timeout);
      running.asked.push({ resolve, reject, timer });
      running.stdin.write(JSON.stringify({ id: ++this.number, act, ...members }) + "\n");
    });
  }
  // Resolves to the verdict on a response: accepted, refused or error. A wrong signature is reported too, so that it is refused and logged.
  async finish(act, session, response) {
    const answer = await this.ask(act, { session, response });
    if (!answer.verify) return answer;
    return this.ask(act, { session, response, verified: isValid(answer.verify) && answer.verify });
  }
  end() {
    this.running?.stdin.end();
  }
}

// A session goes only to its visitor, in a cookie: the program has sealed it. Another cookie, signed here, says who signed in, for the
// site's other pages.
const secret = randomBytes(32);
const code = text => createHmac("sha256", secret).update(text).digest("base64url");

function kept(name, value) {
  return `${name}=${value}; Path=/; HttpOnly; SameSite=Strict`;
}

function found(request, name) {
  const cookie = (request.headers.cookie ?? "").split("; ").find(one => one.startsWith(name + "="));
  return (cookie ?? "").slice(name.length + 1);
}

// An address may post 50 times at once, and 5 times a second from then on. Returns how many seconds it has to wait; this machine's own is not limited.
const posted = new Map();

export function wait(address = "", now = Date.now() / 1000) {
  if (/^(::1|(::ffff:)?127\..*|)$/.test(address)) return 0;
  const { left, at } = posted.get(address) ?? { left: 50, at: now };
  const tokens = Math.min(50, left + Math.max(0, now - at) * 5);
  posted.delete(address);
  posted.set(address, { left: tokens < 1 ? tokens : tokens - 1, at: now });
  if (posted.size > 10_000) posted.delete(posted.keys().next().value);
  return tokens < 1 ? Math.ceil((1 - tokens) / 5) : 0;
}

const PAGE = `<!doctype html><meta charset="utf-8"><title>A site</title>
<p><input id="name" value="ada"> <button id="registration">Register</button> <button id="sign_in">Sign in</button> <p id="said">
<script type="module">
async function post(path, body) {
  const answer = await fetch(path, { method: "POST", body: JSON.stringify(body) });
  if (!answer.ok) throw new Error(await answer.text());
  return answer.json();
}
async function visit(act) {
  const options = await post("/begin", { act, name: document.getElementById("name").value });
  const credential = act === "registration"
    ? await navigator.credentials.create({ publicKey: PublicKeyCredential.parseCreationOptionsFromJSON(options) })
    : await navigator.credentials.get({ publicKey: PublicKeyCredential.parseRequestOptionsFromJSON(options) });
  return post("/finish", credential.toJSON());
}
for (const act of ["registration", "sign_in"]) {
  document.getElementById(act).onclick = () => visit(act).then(JSON.stringify, String)
    .then(text => document.getElementById("said").textContent = text);
}
</script>`;

async function body(request) {
  const parts = [];
  let size = 0;
  for await (const part of request) {
    if ((size += part.length) > 60_000) throw new SyntaxError("the request is too large");
    parts.push(part);
  }
  return JSON.parse(Buffer.concat(parts).toString());
}

async function begin(site, { act, name }) {
  if (act !== "registration") return ["sign_in", await site.ask("begin_sign_in")];
  const user = randomBytes(16).toString("base64url");
  return ["registration", await site.ask("begin_registration", { user, user_name: String(name) })];
}

async function answered(site, request) {
  if (request.method === "POST" && request.url === "/begin") {
    const [act, answer] = await begin(site, await body(request));
    if (answer.error) return [400, answer.error];
    return [200, JSON.stringify(answer.options), [kept("begun", `${act}.${answer.session}`)]];
  }
  if (request.method === "POST" && request.url === "/finish") {
    const [act, session = ""] = (found(request, "begun") || "sign_in").split(".");
    const answer = await site.finish(`finish_${act}`, session, await body(request));
    if (!answer.accepted) return [400, answer.error ?? `${answer.refused.name}: ${answer.refused.text}`];
    return [200, JSON.stringify(answer.accepted), [kept("user", `${answer.accepted.user}.${code(answer.accepted.user)}`)]];
  }
  return request.method === "GET" && request.url === "/" ? [200, PAGE] : [404, "there is no such page"];
}

export function serve(site, port) {
  return createServer(async (request, response) => {
    const seconds = request.method === "POST" ? wait(request.socket.remoteAddress) : 0;
    if (seconds > 0) return response.writeHead(429, { "Retry-After": seconds }).end();
    const [status, text, cookies = []] = await answered(site, request).catch(error =>
      error instanceof SyntaxError ? [400, error.message] : [503, `${error.message}; ask again`]);
    response.writeHead(status, { "Content-Type": text === PAGE ? "text/html" : "application/json", "Set-Cookie": cookies });
    response.end(text);
  }).listen(port, "localhost");
}

if (import.meta.url === pathToFileURL(process.argv[1]).href) {
  const [port, ...words] = process.argv.slice(2);
  serve(new Site(...words), Number(port));
}
