// Times of a sign-in by the package for JavaScript: javascript.mjs FOLDER, in which it is installed. Each is the processor time of one
// call in microseconds: the least of 60 rounds, and the median. The last line is what kept.py keeps.
import { createHash, generateKeyPairSync, sign } from "node:crypto";
import { pathToFileURL } from "node:url";

const own = (name) => import(pathToFileURL(`${process.argv[2]}/node_modules/garvoeng/${name}`));
const { Server, toText, coseKeyOf } = await own("index.js"), { Module } = await own("module.js"), { assertionImage, handIn, judgeAssertion } = await own("verdicts.js");
const { readFileSync } = await import("node:fs");

const calls = {};

async function measured(what, call, times) {
  const rounds = [];
  for (let round = 0; round < 60; round++) {
    const began = process.cpuUsage();
    for (let time = 0; time < times; time++) await call();
    const { user, system } = process.cpuUsage(began);
    rounds.push((user + system) / times);
  }
  rounds.sort((a, b) => a - b);
  calls[what] = { least: Number(rounds[0].toFixed(1)), median: Number(rounds[30].toFixed(1)) };
  console.log(`${what}: least ${calls[what].least}, median ${calls[what].median}`);
}

const sha256 = (value) => createHash("sha256").update(value).digest(), user = Buffer.from("account 7"), id = Buffer.alloc(16, 7);
const { publicKey, privateKey } = generateKeyPairSync("ec", { namedCurve: "P-256" }), { x, y } = publicKey.export({ format: "jwk" });
const credential = { id, user, algorithm: -7, x: Buffer.from(x, "base64url"), y: Buffer.from(y, "base64url"), signCount: 0, eligible: false };
const server = new Server("example.com", ["https://example.com"]), quick = new Server("example.com", ["https://example.com"], { verify: () => true });
const { options, session } = server.authenticateBegin({ user });
const clientData = Buffer.from(JSON.stringify({ type: "webauthn.get", challenge: options.challenge, origin: "https://example.com", crossOrigin: false }));
const authData = Buffer.concat([sha256("example.com"), Buffer.from([5, 0, 0, 0, 1])]), message = Buffer.concat([authData, sha256(clientData)]);
const signature = sign("sha256", message, privateKey);
const text = JSON.stringify({ id: toText(id), rawId: toText(id), type: "public-key", clientExtensionResults: {}, response: {
  clientDataJSON: toText(clientData), authenticatorData: toText(authData), signature: toText(signature), userHandle: toText(user) } });
const find = { credential: () => credential };

const module = new Module(new WebAssembly.Module(readFileSync(`${process.argv[2]}/node_modules/garvoeng/passkey.wasm`)));
const bytes = (value) => new TextEncoder().encode(value), party = { rpId: bytes("example.com"), origins: [bytes("https://example.com")], profile: 2, topOrigins: [] };
const image = assertionImage(party, session, credential, { rawId: id, user, authData, signature, clientData });
handIn(image, false, { ...credential, message, signature });
if (module.within(() => judgeAssertion(module, image)).answer !== 0) throw new Error("not accepted");
coseKeyOf(credential);

console.log(`Node ${process.version}`);
await measured("a verdict, its memory overwritten", () => module.within(() => judgeAssertion(module, image)), 2_000);
await measured("JSON's text to `SignedIn`, without the mathematics", () => quick.authenticateComplete(session, JSON.parse(text), find), 1_000);
await measured("the same with `node:crypto`", () => server.authenticateComplete(session, JSON.parse(text), find), 300);
console.log(JSON.stringify({ calls }));
