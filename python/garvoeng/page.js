// The script of passkeys.html; that page's elements have its texts.
const element = (id) => document.getElementById(id);
const words = element("passkeys").dataset;

function button(text, act) {
  const made = document.createElement("button");
  made.textContent = text;
  made.onclick = act;
  return made;
}

// A passkey's line: its name, from its account or its maker, and when it was made and used.
function lineOf({ id, name, model, created, used, retired }) {
  const line = document.createElement("li"), when = [created, used].filter((time) => time).map((time) => new Date(time * 1000).toLocaleString());
  line.textContent = `${[name ?? model ?? `${id.slice(0, 12)}…`, ...when].join(", ")} ${retired ? words.retired : ""} `;
  if (!retired) {
    const called = document.createElement("input");
    called.value = name ?? "";
    line.append(called, button(words.rename, act(words.renamed, () => passkeys.rename(id, called.value))),
      button(words.retire, act(words.retired, () => passkeys.retire(id))));
  }
  return line;
}

let waiting = null;

// Offers the passkeys in the autofill of the name's input, until one is chosen, a button is pressed or the page is hidden: the browser keeps
// the session that began last, which may be another tab's.
async function fill() {
  if (waiting !== null || document.hidden) return;
  waiting = new AbortController();
  try {
    if ((await passkeys.autofill(waiting.signal)) === null) return;
    element("said").textContent = element("sign-in").dataset.done;
  } catch (error) {
    if (error.name !== "AbortError") element("said").textContent = error.message;
    return;
  } finally {
    waiting = null;
  }
  await show();
}

// The visitor's passkeys; if nobody is signed in, autofill.
async function show() {
  const found = await passkeys.list().catch(() => null);
  element("passkeys").replaceChildren(...(found ?? []).map(lineOf));
  if (found === null) fill();
}

function act(done, call) {
  return async () => {
    try {
      await call();
      element("said").textContent = done;
    } catch (error) {
      element("said").textContent = error.message;
    }
    await show();
  };
}

for (const [id, call] of [["register", () => passkeys.register(element("name").value)], ["sign-in", () => passkeys.signIn()], ["sign-out", () => passkeys.signOut()]])
  element(id).onclick = act(element(id).dataset.done, call);
document.addEventListener("visibilitychange", () => (document.hidden ? waiting?.abort() : show()));
show();
