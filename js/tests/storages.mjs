// The storages of a site, each by the line that makes its server: STORAGES[name](). The program is that of PROGRAM, PostgreSQL that of the
// environment.
import { mkdtempSync, rmSync } from "node:fs";
import { createRequire } from "node:module";
import { tmpdir } from "node:os";
import { join } from "node:path";
import { after } from "node:test";
import { KeepingServer, MemoryStore, Server, StoredServer } from "garvoeng";
import { SqlServer } from "garvoeng/sql";

const { Pool } = createRequire(import.meta.url)("pg"), pool = new Pool({ max: 16 }), folder = mkdtempSync(join(tmpdir(), "storages-"));
const party = ["example.com", ["https://example.com"]], logger = () => {};
let files = 0;
after(() => Promise.all([pool.end(), rmSync(folder, { recursive: true })]));

export const STORAGES = {
  memory: () => new KeepingServer(new Server(...party), new MemoryStore()),
  postgres: () => new SqlServer(new Server(...party), pool, { logger }),
  program: () => new StoredServer(process.env.PROGRAM, join(folder, `${++files}.db`), ...party, { logger }),
};

/** A server over an empty storage of this name, until the test ends. */
export async function serving(context, name) {
  if (name === "postgres") for (const table of ["version", "credential", "session"]) await pool.query(`drop table if exists garvoeng_${table}`);
  const server = STORAGES[name]();
  context.after(() => server.close?.());
  return server;
}
