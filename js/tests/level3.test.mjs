// What WebAuthn Level 3 asks more than Level 2, or less: frames, conditional creation, statements that nobody asked for.
import assert from "node:assert/strict";
import { test } from "node:test";
import { BadInput, Credential, RegistrationSession, Server } from "garvoeng";
import { AT, BS, Device, UP, UV } from "./device.mjs";

const user = Buffer.from("account 7"), ORIGIN = "https://example.com", PAGES = ["https://one.example", "https://two.example"];
const serverOf = (profile = "level3", how = {}) => new Server("example.com", [ORIGIN], { profile, ...how });
const framed = (topOrigins) => serverOf("level3", { topOrigins });

async function registers(server, device, begin, how) {
  const { options, session } = server.registerBegin(user, "name", begin);
  return server.registerComplete(session, device.register(options, how), { isRegistered: () => false });
}

async function signsIn(server, device) {
  const { id, algorithm, x, y, count: signCount } = device, credential = new Credential({ id, user, algorithm, x, y, signCount });
  const { options, session } = server.authenticateBegin({ user });
  return server.authenticateComplete(session, device.signIn(options), { credential: () => credential });
}

// The step at which a call ends; null where it is accepted.
async function stepOf(call) {
  try {
    await call;
    return null;
  } catch (error) {
    return error.name;
  }
}

// What client data say of a frame, and the step that refuses it: without leave, and where the two pages may frame.
const FRAMES = [
  [{}, null, null],
  [{ crossOrigin: false }, null, null],
  [{ crossOrigin: true }, 17, 18],
  [{ crossOrigin: true, topOrigin: "https://one.example" }, 17, null],
  [{ crossOrigin: true, topOrigin: "https://two.example" }, 17, null],
  [{ topOrigin: "https://two.example" }, 17, null],
  [{ crossOrigin: false, topOrigin: "https://two.example" }, 17, null],
  [{ crossOrigin: true, topOrigin: "https://three.example" }, 17, 18],
  [{ crossOrigin: true, topOrigin: "https://two.example/" }, 17, 18],
  [{ crossOrigin: true, topOrigin: "" }, 17, 18],
  [{ crossOrigin: true, topOrigin: null }, 17, 18],
  [{ crossOrigin: true, topOrigin: [PAGES[0]] }, 17, 18],
  [{ topOrigin: null }, 17, 18],
  [{ crossOrigin: "true", topOrigin: "https://one.example" }, 17, 17],
  [{ crossOrigin: null }, 17, 17],
  [{ crossOrigin: 0 }, 17, 17],
];

for (const [said, alone, among] of FRAMES) {
  test(`a frame: ${JSON.stringify(said)}`, async () => {
    const device = new Device();
    device.said = said;
    for (const [kind, call] of [["G", registers], ["W", signsIn]]) {
      assert.equal(await stepOf(call(serverOf(), device)), alone === null ? null : `${kind}${alone}`);
      assert.equal(await stepOf(call(framed(PAGES), device)), among === null ? null : `${kind}${among}`);
      for (const profile of ["strict", "open"]) assert.equal(await stepOf(call(serverOf(profile), device)), null);
    }
  });
}

test("one page of many", async () => {
  const device = new Device(), many = [...Array(40).keys()].map((number) => `https://page${number}.example`);
  for (const topOrigin of [many[0], many[20], many[39]]) {
    device.said = { crossOrigin: true, topOrigin };
    assert.equal(await stepOf(signsIn(framed(many), device)), null);
    assert.equal(await stepOf(signsIn(framed(many.filter((one) => one !== topOrigin)), device)), "W18");
  }
});

test("presence is waived for conditional creation alone", async () => {
  for (const flags of [AT, UV | AT]) {
    assert.equal((await registers(serverOf(), new Device(), { conditional: true }, { flags })).flags, flags);
    assert.equal(await stepOf(registers(serverOf(), new Device(), {}, { flags })), "G9");
    for (const profile of ["strict", "open"])
      assert.equal(await stepOf(registers(serverOf(profile), new Device(), { conditional: true }, { flags })), "G9");
  }
  const strictly = { conditional: true, userVerification: "required" };
  assert.equal(await stepOf(registers(serverOf(), new Device(), strictly, { flags: AT })), "G10");
  assert.equal(await stepOf(registers(serverOf(), new Device(), {}, { flags: UP | UV | AT | BS })), "G7");
});

test("a statement is looked at where it was asked for", async () => {
  const asked = [], verify = (...parts) => asked.push(parts) === 0, device = new Device(), server = serverOf("level3", { verify });
  assert.equal((await registers(server, device, {}, { isPacked: true })).format, "none");
  assert.equal(asked.length, 0);
  assert.equal(await stepOf(registers(server, device, { attestation: "direct" }, { isPacked: true })), "G13");
  assert.equal(asked.length, 1);
  assert.equal((await registers(serverOf(), device, { attestation: "direct" }, { isPacked: true })).format, "packed");
  assert.equal(await stepOf(registers(serverOf("level3", { acceptNone: false }), device, {}, { isPacked: true })), "G14");
});

test("parameters, and sessions in JSON", () => {
  const server = new Server("example.com", [ORIGIN]);
  assert.deepEqual([server.profile, server.topOrigins], ["level3", []]);
  for (const bad of ["Level3", "", null, 2, ["open"]]) assert.throws(() => serverOf(bad), BadInput);
  for (const bad of [PAGES[0], [PAGES[0] + "/"], [""], [7], null]) assert.throws(() => framed(bad), BadInput);
  for (const bad of ["", "Direct", null, true]) assert.throws(() => server.registerBegin(user, "name", { attestation: bad }), BadInput);
  for (const attestation of ["indirect", "direct", "enterprise"]) {
    const { options, session } = server.registerBegin(user, "name", { attestation, conditional: true });
    assert.deepEqual([options.attestation, session.attestation, session.conditional], [attestation, true, true]);
    assert.deepEqual(RegistrationSession.fromJSON(JSON.stringify(session)), session);
  }
  const { session } = server.registerBegin(user, "name"), { conditional, attestation, ...older } = session.toJSON();
  assert.deepEqual([conditional, attestation], [false, false]);
  const read = RegistrationSession.fromJSON(older);
  assert.deepEqual([read.conditional, read.attestation], [false, true]);
  for (const name of ["conditional", "attestation"])
    for (const bad of [null, 1, "true"]) assert.throws(() => RegistrationSession.fromJSON({ ...session.toJSON(), [name]: bad }), BadInput);
});

test("what browsers are told", () => {
  const server = new Server("example.com", [ORIGIN, "https://example.org", "android:apk-key-hash:abc"]);
  const kept = { id: Buffer.from([1]) }, gone = { id: Buffer.from([2]), retired: true }, userId = "YWNjb3VudCA3";
  assert.deepEqual(server.relatedOrigins(), { origins: [ORIGIN, "https://example.org"] });
  assert.deepEqual(server.signalUnknownCredential(Buffer.from([255, 254])), { rpId: "example.com", credentialId: "__4" });
  assert.deepEqual(server.signalAllAccepted(user, [kept, gone, Buffer.from([3])]),
                   { rpId: "example.com", userId, allAcceptedCredentialIds: ["AQ", "Aw"] });
  assert.deepEqual(server.signalUserDetails(user, "new", "New"), { rpId: "example.com", userId, name: "new", displayName: "New" });
});
