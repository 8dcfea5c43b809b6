// A site in Express whose visitors sign in with passkeys: node passkey_site.cjs
const express = require("express");
const { StoredServer } = require("garvoeng");
const { passkeys } = require("garvoeng/http");

const server = new StoredServer("../dist/passkey-site", "site.db", "localhost", ["http://localhost:3000"]);
const app = express(), site = passkeys(server);

app.use(site);
app.get("/", (request, response, next) => {
  const said = (user) => (user ? `Hello, ${Buffer.from(user).toString("hex").slice(0, 8)}` : "Nobody is signed in");
  site.signedIn(request).then((user) => response.send(`<p>${said(user)}: <a href='/passkeys/'>passkeys</a></p>`), next);
});
app.listen(3000, "localhost");
