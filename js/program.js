// Runs of the proved program passkey-site, which answers lines of JSON in their order and uses its file alone.
import { spawn } from "node:child_process";
import { createInterface } from "node:readline";
import { BadInput, StoreFailed, logTo } from "./errors.js";
import { ownOf } from "./limits.js";

/** The longest line that the program takes, in bytes. */
export const MAX_LINE = 65_536;
const LINE_FEED = 10;

const IN_USE = "the file is in use";
const ONE_PROCESS = "one process has the file: make the StoredServer in the primary of node:cluster, or use a SqlServer";

function because(text, said) {
  return new StoreFailed([text, said, said.includes(IN_USE) ? ONE_PROCESS : ""].filter((one) => one !== "").join(": "));
}

function answerIn(line) {
  try {
    const value = JSON.parse(line);
    return typeof value === "object" && value !== null && !Array.isArray(value) ? ownOf(value) : null;
  } catch {
    return null;
  }
}

/** One run. It keeps this process alive only during a call, or while its end is awaited. Its input ends with this process; then it closes
 *  its file and ends too. */
class Run {
  #child;
  #timeout;
  #log;
  #asked = [];
  #number = 0;
  #pieces = [];
  #said = "";
  #wrong = null;

  constructor([program, ...words], timeout, log) {
    this.#timeout = timeout;
    this.#log = log;
    this.isRunning = true;
    try {
      this.#child = spawn(program, words, { stdio: ["pipe", "pipe", "pipe"] });
    } catch (error) {
      throw new StoreFailed(`the program can't be started: ${error.message}`);
    }
    const { stdin, stdout, stderr } = this.#child;
    this.ended = new Promise((resolve) => {
      this.#child.on("error", (error) => {
        if (this.#child.pid === undefined) this.#wrong ??= `the program can't be started: ${error.message}`;
      });
      this.#child.on("exit", () => (this.isRunning = false));
      this.#child.on("close", (status) => resolve(this.#close(status)));
    });
    stdin.on("error", () => this.#kill());
    stdout.on("data", (piece) => this.#read(piece));
    createInterface({ input: stderr }).on("line", (line) => this.#hear(line));
    this.#hold(false);
  }

  #hold(is) {
    for (const one of [this.#child, this.#child.stdin, this.#child.stdout, this.#child.stderr]) is ? one.ref() : one.unref?.();
  }

  #kill() {
    this.isRunning = false;
    this.#child.kill("SIGKILL");
  }

  #hear(line) {
    if (line.trim() === "") return;
    this.#said = line;
    logTo(this.#log, line);
  }

  #read(piece) {
    let from = 0;
    for (let at = piece.indexOf(LINE_FEED); at >= 0; at = piece.indexOf(LINE_FEED, from)) {
      this.#answered(Buffer.concat([...this.#pieces.splice(0), piece.subarray(from, at)]).toString());
      from = at + 1;
    }
    if (from < piece.length) this.#pieces.push(piece.subarray(from));
  }

  // Each answer goes to the first call that waits. If one is not the answer to its own call, the program is ended, so that no call ever
  // gets another's answer.
  #answered(line) {
    if (this.#wrong !== null) return;
    const [first] = this.#asked, answer = answerIn(line);
    if (first === undefined || answer === null || ![first.number, null].includes(answer.id ?? null)) {
      this.#wrong = "the program answered what is no answer";
      this.#kill();
      return;
    }
    this.#asked.shift();
    clearTimeout(first.timer);
    if (this.#asked.length === 0) this.#hold(false);
    first.resolve(answer);
  }

  #close(status) {
    this.isRunning = false;
    for (const { reject, timer } of this.#asked.splice(0)) {
      clearTimeout(timer);
      reject(because(this.#wrong ?? "the program ended before it answered", this.#said));
    }
    return status;
  }

  ask(act, members) {
    const number = ++this.#number, line = `${JSON.stringify({ id: number, act, ...members })}\n`;
    if (Buffer.byteLength(line) > MAX_LINE) throw new BadInput("the line is too long");
    return new Promise((resolve, reject) => {
      const timer = setTimeout(() => {
        this.#wrong ??= `the program did not answer in ${this.#timeout / 1000} seconds`;
        this.#kill();
      }, this.#timeout);
      this.#asked.push({ number, resolve, reject, timer });
      this.#hold(true);
      this.#child.stdin.write(line);
    });
  }

  /** Ends its input, so that it answers the open calls and closes its file. Returns its status. A run that has not ended in time is
   *  killed. */
  async end() {
    this.#hold(true);
    this.isRunning = false;
    this.#child.stdin.end();
    const timer = setTimeout(() => this.#kill(), this.#timeout);
    const status = await this.ended;
    clearTimeout(timer);
    return status;
  }
}

/** The program of these words, which is started if it does not run. If a run ends, its open calls reject: they may or may not be done. */
export class Program {
  #words;
  #timeout;
  #log;
  #run = null;

  constructor(words, timeout, log) {
    this.#words = words;
    this.#timeout = timeout;
    this.#log = log;
  }

  // A run that has the file: if it is ending, its end is awaited.
  async #running() {
    while (this.#run !== null && !this.#run.isRunning) await this.#ending(this.#run);
    this.#run ??= new Run(this.#words, this.#timeout, this.#log);
    return this.#run;
  }

  async #ending(run) {
    const status = await run.end();
    if (this.#run === run) this.#run = null;
    return status;
  }

  /** Resolves to the answer to an act. Rejects with `BadInput` if the line would be too long, and with `StoreFailed`. */
  async ask(act, members) {
    const run = await this.#running(), answer = await run.ask(act, members);
    if (!Object.hasOwn(answer, "failed")) return answer;
    await this.#ending(run);
    throw new StoreFailed(String(answer.failed));
  }

  async close() {
    const run = this.#run;
    if (run === null) return;
    const wasRunning = run.isRunning, status = await this.#ending(run);
    if (wasRunning && status !== 0) throw new StoreFailed("the program could not close its file");
  }
}
