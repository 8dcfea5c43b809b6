// The lines by which the page begins, with a device in the place of the browser.
import assert from "node:assert/strict";
import { test } from "node:test";
import { Refused, Server, toText } from "garvoeng";
import { Device } from "./device.mjs";

test("the lines of the page", async () => {
  const device = new Device(), table = new Map(), said = [], console = { log: (...words) => said.push(words.join(" ")) };
  const user = Buffer.from("account 7");
  const page = async (options) => (options.rpId ? device.signIn(options, { user }) : device.register(options));

  const server = new Server("example.com", ["https://example.com"]);

  const begun = server.registerBegin(user, "name");
  const { credential } = await server.registerComplete(begun.session, await page(begun.options), {
    isRegistered: (id) => table.has(toText(id)),
  });
  table.set(toText(credential.id), credential);

  const { options, session } = server.authenticateBegin();
  const signedIn = await server.authenticateComplete(session, await page(options), {
    credential: (id) => table.get(toText(id)),
  });
  table.set(toText(signedIn.credential.id), signedIn.credential);

  assert.equal(signedIn.credential.signCount, 1);
  device.count = 0;
  const response = await page(options);
  try {
    await server.authenticateComplete(session, response, { credential: (id) => table.get(toText(id)) });
  } catch (error) {
    if (!(error instanceof Refused)) throw error;
    console.log(error.name, error.step); // W15 CounterNotGreater
  }
  assert.deepEqual(said, ["W15 CounterNotGreater"]);
});
