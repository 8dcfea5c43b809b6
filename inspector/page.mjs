// The page: what its fields and buttons do.
import { find } from "./elements.mjs";
import { explain, kindOf } from "./explain.mjs";
import { caseIn, isCase, responseIn, setCase, showKind, takeFromResponse } from "./form.mjs";
import { hexOf } from "./cbor.mjs";
import { libraryOf } from "./library.mjs";
import { makePasskey, prepareMaking, usePasskey } from "./making.mjs";
import { shown } from "./shown.mjs";

async function unpacked(text) {
  const packed = Uint8Array.from(atob(text), (letter) => letter.charCodeAt(0));
  const stream = new Blob([packed]).stream().pipeThrough(new DecompressionStream("gzip"));
  return new Uint8Array(await new Response(stream).arrayBuffer());
}

function say(text) {
  find("fault").textContent = text;
}

// Inspects what the fields say, and goes to the verdict.
async function inspect(library, steps) {
  say("");
  find("told").replaceChildren();
  let given;
  try {
    given = caseIn();
  } catch {
    say("The response is not JSON.");
    find("response").focus();
    return null;
  }
  const told = await explain(given, library, steps);
  find("told").replaceChildren(...shown(told, given));
  find("verdict").focus();
  return told;
}

// Where a whole case was pasted, its fields are filled in.
function received(library) {
  let value = null;
  try {
    value = responseIn();
  } catch {
    showKind(null);
    return;
  }
  if (isCase(value)) setCase({ credential: null, ...value }, library);
  else showKind(kindOf(value));
}

function listen(library, { steps, examples }) {
  const run = (work) => () => work().catch((error) => say(`It failed: ${error.message}`));
  const inspectNow = () => inspect(library, steps), take = async (text) => {
    find("response").value = text;
    received(library);
  };
  find("form").addEventListener("submit", (event) => {
    event.preventDefault();
    run(inspectNow)();
  });
  find("response").addEventListener("input", run(async () => received(library)));
  find("file").addEventListener("change", run(async () => take(await find("file").files[0].text())));
  document.addEventListener("dragover", (event) => event.preventDefault());
  document.addEventListener("drop", (event) => {
    const [file] = event.dataTransfer.files;
    if (file === undefined) return;
    event.preventDefault();
    run(async () => take(await file.text()))();
  });
  for (const [id, given] of Object.entries(examples)) {
    find(`example-${id}`).addEventListener("click", run(async () => {
      setCase(given, library);
      await inspectNow();
    }));
  }
  find("take").addEventListener("click", () => say(takeFromResponse(library)));
  find("make").addEventListener("click", run(() => makePasskey(library, inspectNow)));
  find("use").addEventListener("click", run(() => usePasskey(library, inspectNow)));
}

/** Begins. `data` has the module, packed by gzip, in base64, the steps, and examples of cases. */
export async function begin(data) {
  try {
    const module = await unpacked(data.module), library = libraryOf(await WebAssembly.compile(module));
    find("digest").textContent = hexOf(new Uint8Array(await crypto.subtle.digest("SHA-256", module)));
    listen(library, data);
    prepareMaking();
    received(library);
    find("inspect").disabled = false;
  } catch (error) {
    say(`This browser can't run the page: ${error.message}`);
  }
}
