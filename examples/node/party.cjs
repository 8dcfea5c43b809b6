// The relying party of both sites: over the PostgreSQL database in DATABASE_URL, or otherwise over the proved program, which keeps FILE.
const { Server, StoredServer } = require("garvoeng");
const { SqlServer } = require("garvoeng/sql");

const { DATABASE_URL, PORT = "8080", ORIGIN = `http://localhost:${PORT}`, PROGRAM = "dist/passkey-site", FILE = "site.db" } = process.env;
const party = [new URL(ORIGIN).hostname, [ORIGIN]];

exports.port = Number(PORT);
exports.server = DATABASE_URL === undefined
  ? new StoredServer(PROGRAM, FILE, ...party, { log: true })
  : new SqlServer(new Server(...party), new (require("pg").Pool)({ connectionString: DATABASE_URL }));
