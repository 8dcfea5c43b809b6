// What the processes of a site share: the program, and the sign-ins.
import { randomBytes } from "node:crypto";
import { Visitors } from "./site_stores.js";

/** The program, and the site's `Visitors` in the memory of the process that runs it. */
export class Shared {
  #program;
  #visitors = new Visitors(randomBytes);

  constructor(program) {
    this.#program = program;
  }

  async ask(act, members) {
    if (act === "visitors") return { told: this.#visitors[members.call](...members.words) ?? null };
    return this.#program.ask(act, members);
  }

  close() {
    return this.#program.close();
  }
}
