// What is told of the responses of python/tests/hostile_lines.py (HOSTILE, its lines): the answer that stands there.
import assert from "node:assert/strict";
import { readFileSync } from "node:fs";
import { test } from "node:test";
import { explain, kindOf } from "../explain.mjs";
import { libraryIn, stepsInPages } from "../tools.mjs";

const [party, ...lines] = readFileSync(process.env.HOSTILE, "utf8").trimEnd().split("\n").map((line) => JSON.parse(line));
const library = await libraryIn(), steps = await stepsInPages();

test("the answers are those of the library", async () => {
  const given = { rp_id: party.rp_id, origins: [party.origin] }, wrong = [];
  let tried = 0;
  for (const { call, what, response, answer } of lines) {
    const of = call === "registration" ? { session: party.registration } : { session: party.sign_in, credential: response?.rawId === party.credential.id ? party.credential : null };
    const { kind, verdict, refusal, fault, steps: told } = await explain({ ...given, ...of, response }, library, steps);
    const isStep = /^[GW][0-9]+$/.test(answer), wanted = answer === null ? "accepted" : isStep ? answer : "not judged";
    if ((refusal?.code ?? verdict) !== wanted) wrong.push([call, what, wanted, refusal?.code ?? verdict, fault]);
    if (kind !== null && wanted === "not judged" && kindOf(response) === (call === "registration" ? "registration" : "sign-in") && fault !== answer) wrong.push([call, what, answer, fault]);
    assert.equal(JSON.stringify(told.map(({ state }) => state)).includes("failed"), isStep);
    tried++;
  }
  assert.deepEqual(wrong.slice(0, 9), []);
  assert.ok(tried >= 2000, `${tried}`);
});
