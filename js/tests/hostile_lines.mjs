// The hostile responses of HOSTILE, each as a server that stores is to answer it.
import assert from "node:assert/strict";
import { readFileSync } from "node:fs";
import { BadInput, Refused } from "garvoeng";

/** That a server answers each as `Server` does, in an open session of either ceremony. */
export async function refusesHostileLines(server, { registration, signIn }) {
  const [, ...lines] = readFileSync(process.env.HOSTILE, "utf8").trimEnd().split("\n"), wrong = [];
  assert.ok(lines.length >= 2_000);
  for (const line of lines) {
    const { call, what, response, answer } = JSON.parse(line), isVerdict = answer === null || /^[GW]\d+$/.test(answer);
    try {
      await (call === "registration" ? server.registerComplete(registration, response) : server.authenticateComplete(signIn, response));
      wrong.push([what, "accepted"]);
    } catch (error) {
      const isWanted = isVerdict ? error instanceof Refused : error instanceof BadInput && error.text === answer;
      if (!isWanted) wrong.push([what, String(error), answer]);
    }
  }
  assert.deepEqual(wrong, []);
}
