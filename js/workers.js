// One program for the processes of node:cluster: the primary runs it, and its workers ask the primary.
import cluster from "node:cluster";
import { BadInput, StoreFailed } from "./errors.js";
import { ownOf } from "./limits.js";

const FIELD = "garvoeng";
const served = new Map();

async function answerOf(key, act, members) {
  try {
    if (!served.has(key)) return { failed: "the primary process has no StoredServer of these words" };
    return await served.get(key).ask(act, members);
  } catch (error) {
    return error instanceof BadInput ? { error: error.text } : { failed: error.message };
  }
}

/** In the primary: answers the workers' calls to the program with this key. */
export function serveWorkers(key, program) {
  if (served.size === 0) {
    cluster.on("message", async (worker, message) => {
      if (message?.[FIELD] === undefined) return;
      const { number, key, act, members } = message[FIELD], answer = await answerOf(key, act, members);
      if (worker.isConnected()) worker.send({ [FIELD]: { number, answer } }, () => {});
    });
  }
  served.set(key, program);
}

const asked = new Map();
let numbers = 0;

function settle(number, settles) {
  const waiting = asked.get(number);
  if (waiting === undefined) return;
  asked.delete(number);
  clearTimeout(waiting.timer);
  settles(waiting);
}

function listen() {
  process.on("message", (message) => {
    if (message?.[FIELD] !== undefined) settle(message[FIELD].number, ({ resolve }) => resolve(ownOf(message[FIELD].answer)));
  });
  process.on("disconnect", () => {
    for (const number of [...asked.keys()]) settle(number, ({ reject }) => reject(new StoreFailed("the primary process has ended")));
  });
}

/** In a worker: the program that the primary runs. */
export class ProgramOfPrimary {
  #key;
  #timeout;

  constructor(key, timeout) {
    this.#key = key;
    this.#timeout = timeout;
    if (numbers++ === 0) listen();
  }

  async ask(act, members) {
    const number = ++numbers, fail = (text) => settle(number, ({ reject }) => reject(new StoreFailed(text)));
    const answer = await new Promise((resolve, reject) => {
      const timer = setTimeout(() => fail(`the primary process did not answer in ${this.#timeout / 1000} seconds: make the same StoredServer there`), this.#timeout);
      asked.set(number, { resolve, reject, timer });
      if (!process.connected) return fail("the primary process has ended");
      process.send({ [FIELD]: { number, key: this.#key, act, members } }, (error) => error && fail(error.message));
    });
    if (Object.hasOwn(answer, "failed")) throw new StoreFailed(String(answer.failed));
    return answer;
  }

  async close() {}
}
