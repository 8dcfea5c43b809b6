// A site over Express: node express.cjs, or node workers.cjs ./express.cjs
const express = require("express");
const { toText } = require("garvoeng");
const { passkeys } = require("garvoeng/http");
const { port, server } = require("./party.cjs");

const app = express(), site = passkeys(server);

app.use(site);
app.get("/", (_, response) => response.sendFile(`${__dirname}/page.html`));
app.get("/account", (request, response, next) => {
  const answer = (user) => response.status(user === null ? 401 : 200).type("text").send(user === null ? "nobody is signed in" : toText(user));
  site.signedIn(request).then(answer, next);
});
app.listen(port, "localhost");
