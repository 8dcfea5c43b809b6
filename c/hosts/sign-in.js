// A whole sign-in from Node, of which Chromium made the response; node:crypto verifies its signature. With recorded.txt and
// passkey.node in the folder: node sign-in.js
const { createPublicKey, verify } = require("node:crypto");
const { readFileSync } = require("node:fs");
const passkey = require("./passkey.node");

const BAD_SIGNATURE = 14;

function isValid({ x, y, message, signature }) {
  const jwk = { kty: "EC", crv: "P-256", x: x.toString("base64url"), y: y.toString("base64url") };
  try {
    return verify("sha256", message, { key: createPublicKey({ key: jwk, format: "jwk" }), dsaEncoding: "der" }, signature);
  } catch {
    return false; // the point is not on the curve
  }
}

// Judges a sign-in, and verifies its signature where each step before it is passed.
function signIn(parts) {
  const judged = passkey.judge(parts, null);
  if (judged.answer !== BAD_SIGNATURE) return judged;
  const asked = passkey.asked(parts);
  return isValid(asked) ? passkey.judge(parts, asked) : judged;
}

const lines = readFileSync("recorded.txt", "utf8").trim().split("\n").map(line => line.split(" "));
const parts = Object.fromEntries(lines.map(([name, hex]) => [name, Buffer.from(hex, "hex")]));
for (const change of [0, 1]) {
  parts.signature[parts.signature.length - 1] ^= change;
  const { answer, text, signCount } = signIn(parts);
  console.log(`${answer} ${text}, counter ${signCount}`);
}
