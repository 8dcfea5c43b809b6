// Visitors of a site of examples/node, which lies in this folder: load.mjs SITE SECONDS [RATE]. It starts the site by four workers, of
// which one is killed each second, where the site has answered enough since the last. Each visitor registers a key and signs in, each
// response sent three times at once, until the seconds have passed and enough was accepted and killed: a slow machine takes longer. With
// RATE nothing is killed, each visitor sends each response once, and waits, so that there are so many requests a second in all. Says what
// was counted and the times of requests in milliseconds; its status is 1 where a response was accepted twice, an acceptance that was
// answered is lost, or there is no end.
import { spawn } from "node:child_process";
import { once } from "node:events";
import { readFileSync } from "node:fs";
import { createServer } from "node:net";
import { Device } from "./device.mjs";

const [site, seconds, rate] = process.argv.slice(2), VISITORS = 16, KILLED = rate === undefined ? 3 : 0;
// Answers from one kill to the next: each visitor has some, however slow the machine is.
const BETWEEN = 4 * VISITORS;
// Milliseconds from one visit to the next, which is two requests.
const pause = rate === undefined ? 0 : (2 * VISITORS * 1_000) / Number(rate);
const free = createServer().listen(0, "localhost");
await once(free, "listening");
const { port } = free.address(), origin = `http://localhost:${port}`;
free.close();
const primary = spawn(process.execPath, ["workers.cjs", `./${site}.cjs`], { env: { ...process.env, PORT: `${port}` }, stdio: "ignore" });
const taken = [], counted = { accepted: 0, refused: 0, failed: 0, twice: 0, lost: 0, copies: 0, killed: 0 };
const sleep = (milliseconds) => new Promise((resolve) => setTimeout(resolve, milliseconds));
setTimeout(tell, (Number(seconds) + 120) * 1_000, "no end");
while (!(await fetch(origin).then(({ ok }) => ok, () => false))) await sleep(100);
const ends = Date.now() + Number(seconds) * 1_000;
const isOver = () => Date.now() >= ends && counted.accepted >= VISITORS && counted.killed >= KILLED;
let answered = 0;

// What was counted, and the end: tell(WHY), of what has gone wrong.
function tell(...wrong) {
  primary.kill();
  taken.sort((a, b) => a - b);
  const at = (part) => taken[Math.floor(taken.length * part)]?.toFixed(1);
  console.log(JSON.stringify({ ...counted, requests: taken.length, p50: at(0.5), p99: at(0.99), wrong }));
  process.exit(wrong.length === 0 ? 0 : 1);
}

const ANSWERS = [200, 400, 403];

async function post(path, body, cookie = "") {
  const began = performance.now();
  try {
    const answer = await fetch(`${origin}/passkeys/${path}`, { method: "POST", headers: { "Content-Type": "application/json", cookie }, body: JSON.stringify(body), signal: AbortSignal.timeout(20_000) });
    const told = await answer.json();
    taken.push(performance.now() - began);
    if (ANSWERS.includes(answer.status)) answered++;
    return { status: answer.status, told, cookie: answer.headers.getSetCookie()[0]?.split(";")[0] };
  } catch {
    return { status: 0 };
  }
}

// The same until the site answers.
async function asked(path, body, cookie) {
  for (;;) {
    const answer = await post(path, body, cookie);
    if (ANSWERS.includes(answer.status)) return answer;
    counted.failed++;
    await sleep(50);
  }
}

function kindOf({ status, told }) {
  if (status === 200) return "accepted";
  return status === 403 && ["W1", "W15"].includes(told.refusal) ? "refused" : "failed";
}

async function visit(index) {
  const device = new Device(undefined, { id: Buffer.from(`${process.pid} ${index}`), rpId: "localhost", origin });
  let user = null, last = -1;
  while (user === null) {
    const begun = await asked("register/begin", { name: "ada" }), made = await post("register/finish", device.register(begun.told), begun.cookie);
    if (made.status === 200) user = begun.told.user.id;
    // A registration whose answer was lost is there or is not: a key of another id is registered.
    else device.id = Buffer.concat([device.id, Buffer.from("'")]);
  }
  const handle = Buffer.from(user, "base64url"), signIn = async (times) => {
    const begun = await asked("sign-in/begin", {}), response = device.signIn(begun.told, { user: handle });
    const answers = await Promise.all(Array.from({ length: times }, () => post("sign-in/finish", response, begun.cookie)));
    return answers.map(kindOf);
  };
  let next = Date.now() + (pause * index) / VISITORS;
  while (!isOver() || last < 0) {
    await sleep(Math.max(0, next - Date.now()));
    next += pause;
    const kinds = await signIn(rate === undefined ? 3 : 1);
    for (const kind of kinds) counted[kind]++;
    const accepted = kinds.filter((kind) => kind === "accepted").length;
    if (accepted > 1) counted.twice++;
    if (accepted > 0) last = device.count;
  }
  // A copy of the key as it was before the last acceptance is refused, and the key itself is not.
  const count = device.count;
  for (;;) {
    device.count = last - 1;
    const [kind] = await signIn(1);
    if (kind === "failed") continue;
    counted[kind === "accepted" ? "lost" : "copies"]++;
    break;
  }
  for (device.count = count; ; ) {
    const [kind] = await signIn(1);
    if (kind === "failed") continue;
    if (kind !== "accepted") counted.lost++;
    break;
  }
}

let killedAt = 0;

function kill() {
  const children = readFileSync(`/proc/${primary.pid}/task/${primary.pid}/children`, "utf8").trim().split(" ").filter((pid) => {
    try {
      return readFileSync(`/proc/${pid}/comm`, "utf8").startsWith("node");
    } catch {
      return false;
    }
  });
  if (children.length === 0 || answered < killedAt + BETWEEN) return;
  process.kill(Number(children[Math.floor(Math.random() * children.length)]), "SIGKILL");
  killedAt = answered;
  counted.killed++;
}

const killing = rate === undefined ? setInterval(() => (isOver() ? clearInterval(killing) : kill()), 1_000) : null;
await Promise.all(Array.from({ length: VISITORS }, (_, index) => visit(index)));
const { accepted, copies, killed, twice, lost } = counted;
const verdict = { accepted: accepted >= VISITORS, copies: copies === VISITORS, killed: killed >= KILLED, twice: twice === 0, lost: lost === 0 };
tell(...Object.keys(verdict).filter((what) => !verdict[what]));
