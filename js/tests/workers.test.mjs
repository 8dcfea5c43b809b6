// `StoredServer` over the proved program (PROGRAM) in processes of their own: their ends, and workers of node:cluster.
import assert from "node:assert/strict";
import { spawn } from "node:child_process";
import { once } from "node:events";
import { existsSync, mkdtempSync, readFileSync, rmSync, writeFileSync } from "node:fs";
import { tmpdir } from "node:os";
import { join } from "node:path";
import { after, test } from "node:test";
import { fileURLToPath } from "node:url";

const { PROGRAM } = process.env, folder = mkdtempSync(join(tmpdir(), "workers-"));
after(() => rmSync(folder, { recursive: true }));
const path = (name) => join(folder, name), sleep = (milliseconds) => new Promise((resolve) => setTimeout(resolve, milliseconds));

// A process that runs this, with `serving` and `Device` in it; what it prints, line by line.
function apart(name, body) {
  const file = fileURLToPath(new URL(`./made-${name}.mjs`, import.meta.url));
  writeFileSync(file, `import cluster from "node:cluster";\nimport { StoredServer } from "garvoeng";\nimport { Device } from "./device.mjs";
const serving = (how) => new StoredServer(${JSON.stringify(PROGRAM)}, ${JSON.stringify(path(`${name}.db`))}, "example.com", ["https://example.com"], { timeout: 20_000, logger: () => {}, ...how });
${body}\n`);
  const child = spawn(process.execPath, [file], { stdio: ["ignore", "pipe", "inherit"] });
  const ended = once(child, "close").finally(() => rmSync(file)), said = [];
  child.stdout.setEncoding("utf8").on("data", (text) => said.push(text));
  return { child, ended, lines: () => said.join("").trim().split("\n").filter((line) => line !== "") };
}

const isAlive = (pid) => existsSync(`/proc/${pid}`) && !readFileSync(`/proc/${pid}/stat`, "utf8").includes(") Z ");
const TELL = 'import { readFileSync } from "node:fs"; const tell = () => console.log(readFileSync(`/proc/self/task/${process.pid}/children`, "utf8").trim());';

test("the program ends with its process, and keeps none alive", async () => {
  const idle = apart("idle", `${TELL} const server = serving(); await server.rows(); tell();`);
  assert.equal((await idle.ended)[0], 0);
  const killed = apart("killed", `${TELL} const server = serving(); await server.rows(); tell(); setInterval(() => {}, 1_000);`);
  while (killed.lines().length === 0) await sleep(50);
  killed.child.kill("SIGKILL");
  await killed.ended;
  for (const [pid] of [idle.lines(), killed.lines()]) {
    for (let time = 0; time < 600 && isAlive(Number(pid)); time++) await sleep(50);
    assert.equal(isAlive(Number(pid)), false);
  }
});

test("workers of node:cluster share one program", async () => {
  const run = apart("cluster", `
const server = serving(), user = Buffer.from("account 7"), times = 40;
if (cluster.isPrimary) {
  let left = 4;
  for (let count = 0; count < 5; count++) cluster.fork({ COUNT: count });
  cluster.on("exit", async (worker, status) => {
    console.log(JSON.stringify({ status }));
    if (status !== null && --left === 0) {
      console.log(JSON.stringify({ rows: (await server.rows()).map((row) => [Buffer.from(row.id).toString(), row.signCount]).sort() }));
      await server.close();
    }
  });
} else if (process.env.COUNT === "4") {
  for (;;) { server.authenticateBegin().catch(() => {}); if (Math.random() < 0.05) process.kill(process.pid, "SIGKILL"); await new Promise(setImmediate); }
} else {
  const device = new Device(undefined, { id: Buffer.from("key " + process.env.COUNT) }), begun = await server.registerBegin(user, "name");
  await server.registerComplete(begun.session, device.register(begun.options));
  for (let time = 0; time < times; time++) {
    const { options, session } = await server.authenticateBegin({ allow: [device.id] }), response = device.signIn(options, { user });
    const answers = await Promise.allSettled([1, 2].map(() => server.authenticateComplete(session, response)));
    if (answers.filter((one) => one.status === "fulfilled").length !== 1) throw new Error(JSON.stringify(answers));
  }
  const tooLong = await server.registerBegin(user, "A".repeat(70_000)).catch((error) => error.name);
  const other = await serving({ rpName: "another" }).rows().catch((error) => error.name + ": " + error.message);
  console.log(JSON.stringify({ tooLong, other }));
  process.exit(0);
}`);
  await run.ended;
  const lines = run.lines().map((line) => JSON.parse(line)), has = (wanted) => lines.filter((line) => JSON.stringify(line) === JSON.stringify(wanted)).length;
  assert.equal(has({ status: 0 }), 4, run.lines().join("\n"));
  assert.equal(has({ status: null }), 1);
  assert.equal(has({ tooLong: "BadInput", other: "StoreFailed: the primary process has no StoredServer of these words" }), 4);
  assert.deepEqual(lines.at(-1), { rows: [0, 1, 2, 3].map((count) => [`key ${count}`, 40]) });
});

test("workers share who is signed in, and each has the answer that it asked for", async () => {
  const run = apart("shared", `
const server = serving(), store = server.webStore, user = Buffer.from("account 7"), [name, names] = ["blue", async () => [...(await store.names(user))]];
if (cluster.isPrimary) {
  const workers = [cluster.fork({ FIRST: "1" }), cluster.fork()];
  let number = null, tell = null;
  workers[0].on("message", (message) => typeof message === "string" && ((number = message), tell?.()));
  workers[1].on("message", (message) => message === "which?" && ((tell = () => workers[1].send(number)), number === null || tell()));
  workers[1].on("exit", async () => {
    console.log(JSON.stringify([(await names()).length, await store.abandon("0".repeat(32))]));
    await server.close();
  });
} else if (process.env.FIRST) {
  await store.rename(user, Buffer.from("x"), name);
  process.send(await store.keepSignIn(user, Buffer.from("x"), 60), () => process.exit(0));
} else {
  const number = await new Promise((resolve) => (process.on("message", (message) => typeof message === "string" && resolve(message)), process.send("which?")));
  const rows = server.rows(), tooLong = server.registerBegin(user, "A".repeat(70_000), { exclude: [] }).catch(({ name }) => name), found = store.signedIn(number), none = store.signedIn("x");
  const answers = await Promise.all([rows, tooLong, found.then((one) => [Buffer.from(one.user).toString(), Buffer.from(one.credential).toString(), one.number === number]), none, names()]);
  console.log(JSON.stringify([...answers, await store.abandon(number), await store.signedIn(number), (await store.secret()).length]));
  process.env.pm_id = "0";
  try { serving(); } catch (error) { console.log(JSON.stringify([error.name, error.message.includes("PM2")])); }
  process.exit(0);
}`);
  await run.ended;
  assert.deepEqual(run.lines().map((line) => JSON.parse(line)),
                   [[[], "BadInput", ["account 7", "x", true], null, [["eA", "blue"]], true, null, 32], ["BadInput", true], [1, false]]);
});

test("a worker whose primary ended or whose program was killed", async () => {
  const run = apart("orphan", `
const server = serving();
if (cluster.isPrimary) {
  const worker = cluster.fork();
  ${TELL.replace("import { readFileSync } from \"node:fs\";", "const { readFileSync } = await import(\"node:fs\");")}
  worker.on("message", (message) => {
    if (message !== "kill") return;
    for (const pid of readFileSync(\`/proc/self/task/\${process.pid}/children\`, "utf8").trim().split(" ").map(Number)) if (pid !== worker.process.pid) process.kill(pid, "SIGKILL");
    worker.send("killed");
  });
  worker.on("message", (message) => message === "end" && process.exit(0));
} else {
  await server.rows();
  process.send("kill");
  await new Promise((resolve) => process.on("message", (message) => message === "killed" && resolve()));
  const found = await Promise.allSettled(Array.from({ length: 5 }, () => server.rows()));
  const again = await server.rows();
  console.log(JSON.stringify([found.every((one) => one.status === "fulfilled" || one.reason.name === "StoreFailed"), again]));
  process.removeAllListeners("disconnect");
  process.on("disconnect", async () => {
    console.log(JSON.stringify(await server.rows().catch((error) => error.name)));
    process.exit(0);
  });
  process.send("end");
}`);
  await run.ended;
  assert.deepEqual(run.lines().map((line) => JSON.parse(line)), [[true, []], "StoreFailed"]);
});

test("a worker whose primary does not answer in time", async () => {
  const run = apart("deaf", `
const server = serving({ timeout: 1_000 });
if (cluster.isPrimary) {
  const worker = cluster.fork(), waits = () => Atomics.wait(new Int32Array(new SharedArrayBuffer(4)), 0, 0, 4_000);
  worker.on("message", (message) => message === "wait" && worker.send("waits", waits)).on("exit", () => server.close());
} else {
  const waits = new Promise((resolve) => process.on("message", (message) => message === "waits" && resolve()));
  process.send("wait");
  await waits;
  const found = await Promise.allSettled([server.rows(), server.authenticateBegin()]);
  let again = null;
  while (again === null) again = await server.rows().catch(() => null);
  console.log(JSON.stringify([found.map(({ reason }) => reason?.message), again]));
  process.exit(0);
}`);
  await run.ended;
  const said = "the primary process did not answer in 1 seconds: make the same StoredServer there";
  assert.deepEqual(run.lines().map((line) => JSON.parse(line)), [[[said, said], []]]);
});
