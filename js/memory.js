// A storage in the memory of one process: for tests, and as an example for writing your own.
import { toText } from "./forms.js";
import { KeptCredential } from "./records.js";

/** A `Store` in the memory of this process, which ends with it. */
export class MemoryStore {
  #sessions = new Map();
  #rows = new Map();

  begin(session) {
    for (const { number, endsAt } of this.#sessions.values()) if (endsAt * 1000 <= Date.now()) this.#sessions.delete(number);
    this.#sessions.set(session.number, session);
  }

  session(number) {
    return this.#sessions.get(number) ?? null;
  }

  register(number, row) {
    if (!this.#sessions.has(number)) return 1;
    if (this.#rows.has(toText(row.id))) return 15;
    this.#sessions.delete(number);
    this.#rows.set(toText(row.id), row);
    return 0;
  }

  signIn(number, row, signCount) {
    if (!this.#sessions.has(number)) return 1;
    const stored = this.row(row.id);
    if (stored === null || stored.retired || stored.signCount !== signCount) return 15;
    this.#sessions.delete(number);
    this.#rows.set(toText(row.id), row);
    return 0;
  }

  abandon(number) {
    return this.#sessions.delete(number);
  }

  row(id) {
    return this.#rows.get(toText(id)) ?? null;
  }

  rows(user) {
    return [...this.#rows.values()].filter((row) => user === null || toText(row.user) === toText(user));
  }

  // The row of an id, of this account if one is named.
  #owned(id, user) {
    return this.rows(user).find((row) => toText(row.id) === toText(id));
  }

  #end(user, kinds) {
    for (const session of this.#sessions.values())
      if (session.user !== null && toText(session.user) === toText(user) && kinds.includes(session.kind)) this.#sessions.delete(session.number);
  }

  retire(id, user) {
    const row = this.#owned(id, user);
    if (row === undefined || row.retired) return false;
    this.#rows.set(toText(id), new KeptCredential({ ...row, retired: true }));
    this.#end(row.user, ["registration"]);
    return true;
  }

  retireAll(user) {
    this.#end(user, ["registration"]);
    return this.rows(user).filter(({ id }) => this.retire(id, user)).length;
  }

  delete(id, user) {
    const row = this.#owned(id, user);
    if (row === undefined) return false;
    this.#end(row.user, ["registration"]);
    return this.#rows.delete(toText(id));
  }

  erase(user) {
    this.#end(user, ["registration", "sign_in"]);
    return this.rows(user).filter(({ id }) => this.delete(id, user)).length;
  }
}
