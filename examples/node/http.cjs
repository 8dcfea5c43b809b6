// A site over node:http: node http.cjs, or node workers.cjs ./http.cjs
const { readFileSync } = require("node:fs");
const { createServer } = require("node:http");
const { toText } = require("garvoeng");
const { passkeys } = require("garvoeng/http");
const { port, server } = require("./party.cjs");

const page = readFileSync(`${__dirname}/page.html`), site = passkeys(server);

createServer((request, response) => {
  const send = (status, type, body) => response.writeHead(status, { "Content-Type": type }).end(body);
  if (request.method === "GET" && request.url === "/") return send(200, "text/html", page);
  if (request.method === "GET" && request.url === "/account") {
    const answer = (user) => (user === null ? send(401, "text/plain", "nobody is signed in") : send(200, "text/plain", toText(user)));
    return site.signedIn(request).then(answer, () => send(503, "text/plain", "try again"));
  }
  site(request, response);
}).listen(port, "localhost");
