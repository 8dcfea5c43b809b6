// What each form of the package answers to one table of responses, in Node and in pages: `form` is what is imported, and of each
// function the promise of `{ tried, wrong }`.

function fromHex(digits) {
  return Uint8Array.from(digits.match(/../g) ?? [], (byte) => parseInt(byte, 16));
}

function joined(parts) {
  return Uint8Array.from(parts.flatMap((part) => [...part]));
}

const is = (a, b) => a.length === b.length && a.every((byte, index) => byte === b[index]);
const utf8 = (text) => new TextEncoder().encode(text);
const repeated = (words) => words.split(" ").filter(Boolean).flatMap((word) => Array(Number(word.split("*")[1] ?? 1)).fill(word.split("*")[0]));

function partsOf(lines, kind) {
  const parts = {};
  for (const [own, name, how, rest] of lines) {
    if (own !== kind || how !== "is") continue;
    const made = rest.startsWith("'") ? utf8(rest.slice(1)) : joined(repeated(rest).map(fromHex));
    parts[name] = joined([parts[name] ?? [], made]);
  }
  return parts;
}

function altered(value, how, at) {
  if (how === "cut") return value.slice(0, at);
  return value.map((byte, index) => (index === at ? byte ^ parseInt(how, 16) : byte));
}

// The number of the step that refuses the response, 0 for none. One signature is valid, of one message.
async function step(form, kind, parts, accepted) {
  const challenge = new Uint8Array(32).fill(1, 7, 8), x = new Uint8Array(32).fill(0x11), y = new Uint8Array(32).fill(0x33), user = Uint8Array.of(1);
  const verify = (algorithm, keyX, keyY, message, signature) =>
    algorithm === form.ES256 && is(keyX, x) && is(keyY, y) && is(message, accepted.message) && is(signature, accepted.verified);
  const server = new form.Server("abc", ["https://abc"], { profile: "strict", verify });
  try {
    if (kind === "sign-in") {
      const stored = new form.Credential({ id: Uint8Array.of(10), user, algorithm: form.ES256, x, y, signCount: 0 });
      await server.authenticateCompleteParts(new form.SignInSession({ challenge, user }), is(parts.credential, stored.id) ? stored : null, {
        rawId: parts.credential, user: parts.user, authData: parts.auth_data, signature: parts.signature, clientData: parts.client_data });
    } else {
      const session = new form.RegistrationSession({ challenge, user, algorithms: [form.ES256, form.EDDSA] });
      await server.registerCompleteParts(session, { attestationObject: parts.object, clientData: parts.client_data }, { rawId: Uint8Array.of(10, 11), isRegistered: false });
    }
  } catch (error) {
    if (error instanceof form.Refused) return error.number;
    throw error;
  }
  return 0;
}

/** The malformed responses of tests/crates/site_tests/malformed.rt.txt, its text: each is refused by the step that its line says, as by
 *  Rattle, C and Python. */
export async function malformed(form, text) {
  const lines = text.split('r#"')[1].split('"#')[0].split("\n").map((line) => line.split("|")), wrong = [];
  let tried = 0;
  for (const [kind, name, how, answers] of lines.filter((line) => line.length === 4 && line[2] !== "is")) {
    const accepted = partsOf(lines, kind), wanted = repeated(answers).map(Number);
    if ((await step(form, kind, accepted, accepted)) !== 0 || wanted.length !== accepted[name].length) wrong.push([kind, name, how, "as it is"]);
    for (let at = 0; at < accepted[name].length; at++, tried++) {
      const found = await step(form, kind, { ...accepted, [name]: altered(accepted[name], how, at) }, accepted);
      if (found !== wanted[at]) wrong.push([kind, name, how, at, found, wanted[at]]);
    }
  }
  return { tried, wrong };
}

/** The hostile responses that python/tests/hostile_lines.py prints, a line each: the same answers as Python's. */
export async function hostile(form, text) {
  const [party, ...lines] = text.trimEnd().split("\n").map((line) => JSON.parse(line)), wrong = [];
  const bytes = (value) => form.fromText(value, "a member"), server = new form.Server(party.rp_id, [party.origin]);
  const { id, user, x, y, sign_count, ...rest } = party.credential;
  const credential = new form.Credential({ ...rest, id: bytes(id), user: bytes(user), x: bytes(x), y: bytes(y), signCount: sign_count });
  const calls = {
    registration: (response) => server.registerComplete(form.RegistrationSession.fromJSON(party.registration), response, { isRegistered: () => false }),
    sign_in: (response) => server.authenticateComplete(form.SignInSession.fromJSON(party.sign_in), response, {
      credential: (asked) => (is(asked, credential.id) ? credential : null),
    }),
  };
  const answerTo = (call, response) => calls[call](response).then(() => null, (error) => {
    if (error instanceof form.Refused) return error.name;
    return error instanceof form.BadInput ? error.text : String(error);
  });
  for (const { call, what, response, answer } of lines) {
    const found = await answerTo(call, response);
    if (found !== answer) wrong.push([call, what, found, answer]);
  }
  for (const value of [undefined, Symbol("a"), 7n, () => ({}), new Proxy([], {}), new Date(), new Map([["response", {}]])])
    for (const call of Object.keys(calls))
      if ((await answerTo(call, value)) !== "response is missing") wrong.push([call, String(value)]);
  return { tried: lines.length, wrong };
}

/** What Chromium and Firefox made, files of python/record: accepted by the platform's mathematics, and never without it. */
export async function recorded(form, files) {
  const wrong = [], count = async (wanted, call) => {
    const found = await call.then(() => "accepted", (error) => error.name);
    tried++;
    if (found !== wanted) wrong.push([tried, found, wanted]);
  };
  let tried = 0;
  for (const { origin, visits } of files.map((file) => JSON.parse(file))) {
    const server = new form.Server("localhost", [origin]), none = new form.Server("localhost", [origin], { verify: () => false });
    for (const { registration, sign_ins } of visits) {
      const made = await server.registerComplete(form.RegistrationSession.fromJSON(registration.session), registration.response, { isRegistered: () => false });
      for (const { session, response } of sign_ins) {
        const begun = form.SignInSession.fromJSON(session), find = { credential: () => made.credential };
        await count("accepted", server.authenticateComplete(begun, response, find));
        await count("W14", none.authenticateComplete(begun, response, find));
      }
    }
  }
  return { tried, wrong };
}
