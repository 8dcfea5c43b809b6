// Prints cases with what is told of them, a line of JSON each, for the same in Python.
import { readFileSync } from "node:fs";
import { explain } from "../explain.mjs";
import { libraryIn, stepsInPages } from "../tools.mjs";
import { accepted, notJudged, refused } from "./cases.mjs";

const library = await libraryIn(), steps = await stepsInPages();

async function tell(what, input) {
  const told = await explain(input, library, steps);
  console.log(JSON.stringify({ what, input, told }));
  return told;
}

for (const [what, input] of [...Object.entries(accepted), ...refused, ...notJudged]) await tell(what, input);
for (const file of ["../../python/tests/recorded.json", "../../c/machines/firefox.json"]) {
  const { origin, visits } = JSON.parse(readFileSync(new URL(file, import.meta.url)));
  for (const { registration, sign_ins } of visits) {
    const party = { rp_id: "localhost", origins: [origin] };
    let { credential } = await tell("a registration of a browser", { ...party, ...registration });
    for (const signIn of sign_ins) ({ credential } = await tell("a sign-in of a browser", { ...party, ...signIn, credential }));
  }
}
