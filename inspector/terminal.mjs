#!/usr/bin/env node
// What the inspector tells, in a terminal: node inspector/terminal.mjs [--json] FILE, of which FILE is a case as the page shows it. The status
// is 0 where the response is accepted, 1 where it is refused, and 2 where it is not judged.
import { readFile } from "node:fs/promises";
import { explain } from "./explain.mjs";
import { libraryIn, stepsInPages } from "./tools.mjs";

const STATUS = { accepted: 0, refused: 1, "not judged": 2 };

function bytesLine({ of, text, hex }) {
  return `${of}: ${[text, hex].filter((one) => one !== null).join(", in bytes ")}`;
}

function stepLines({ code, asks, standard, state, bytes, when, advice }) {
  const line = `${state.padEnd(13)}${code.padEnd(5)}${asks} (${standard})`;
  if (state !== "failed") return [line];
  const below = [...bytes.map(bytesLine), `it is refused where: ${when}`, `what to do: ${advice}`];
  return [line, ...below.map((one) => " ".repeat(18) + one)];
}

/** What `explain` told, as a text. */
function textOf({ kind, verdict, refusal, fault, steps }) {
  const said = refusal === null ? verdict : `${verdict} ${refusal.code} ${refusal.name}: ${refusal.text}`;
  return [`${kind ?? "response"} ${said}${fault === null ? "" : `: ${fault}`}`, ...steps.flatMap(stepLines)].join("\n");
}

async function main(words) {
  const isJson = words[0] === "--json", [file, ...rest] = isJson ? words.slice(1) : words;
  if (file === undefined || rest.length > 0) throw new Error("usage: node inspector/terminal.mjs [--json] FILE");
  const told = await explain(JSON.parse(await readFile(file, "utf8")), await libraryIn(), await stepsInPages());
  console.log(isJson ? JSON.stringify(told, null, 1) : textOf(told));
  return STATUS[told.verdict];
}

try {
  process.exitCode = await main(process.argv.slice(2));
} catch (error) {
  console.error(error.message);
  process.exitCode = 2;
}
