// A relying party whose sessions and credentials are in a storage of the site's own.
import { BadInput, Refused, StoreFailed, ofSession } from "./errors.js";
import { allowed, checkFunction, checkId, checkSession, checkUser, checkWhole, fitting, isBytes, optionsIn, shown } from "./limits.js";
import { registrationOptionsIn, signInOptionsIn } from "./options.js";
import { KeptCredential, RegistrationSession, SignInSession, ofRow, openIn, soundIn, soundOf } from "./records.js";

/** How many seconds a session stays open by default. */
export const LIFETIME = 300;

const CALLS = ["begin", "session", "register", "signIn", "abandon", "row", "rows", "retire", "retireAll", "delete", "erase"];
const NUMBER = /^[0-9a-f]{32}$/;
const CLOSED = "the session is not open";

export const isNumber = (session) => session !== null && NUMBER.test(session);

/** The second since 1970. */
export function now() {
  return Math.floor(Date.now() / 1000);
}

// The store's answer, if it is a valid one.
function answered(call, told, isAnswer, wanted) {
  if (!isAnswer(told)) throw new StoreFailed(`the store's ${call} answered ${shown(told)}, and not ${wanted}`);
  return told;
}

const isCount = (told) => Number.isSafeInteger(told) && told >= 0;
const isFlag = (told) => typeof told === "boolean";

/** The class `KeepingServer`, with random bytes from Node or WebCrypto. */
export function keepingOver(randomBytes) {
  const newNumber = () => Array.from(randomBytes(16), (byte) => byte.toString(16).padStart(2, "0")).join("");

  return class KeepingServer {
    #server;
    #store;
    #lifetime;
    #logger;

    constructor(server, store, options) {
      const { lifetime = LIFETIME, logger = console.error } = optionsIn(options, "KeepingServer", ["lifetime", "logger"]);
      if (typeof server?.relatedOrigins !== "function") throw new BadInput("a KeepingServer is over a Server: write new KeepingServer(new Server(..), new MemoryStore())");
      for (const name of CALLS) checkFunction(store?.[name], `the store's ${name}`, "that of MemoryStore");
      this.#server = server;
      this.#store = store;
      this.#lifetime = checkWhole(lifetime, "lifetime, in seconds,", 1);
      this.#logger = checkFunction(logger, "logger", "(error) => console.error(error)");
      this.origins = server.origins;
      this.topOrigins = server.topOrigins;
    }

    async #begun(kind, { options, session }) {
      const number = newNumber(), { user } = session;
      await this.#store.begin({ number, kind, user, data: JSON.stringify(session), endsAt: now() + this.#lifetime });
      return { options, session: number };
    }

    async #session(number, kind) {
      const found = (await this.#store.session(number)) ?? null;
      answered("session", found, (told) => told === null || typeof told === "object", "a session or null");
      return found !== null && found.kind === kind && found.number === number && found.endsAt > now() ? found : null;
    }

    // The open session with this number and kind, or null.
    async #opened(number, kind, read) {
      const found = isNumber(number) ? await this.#session(number, kind) : null;
      return found === null ? null : ofSession(number, () => openIn(read, found.data));
    }

    // The row with this id, or null.
    async #row(id) {
      const found = (await this.#store.row(id.slice())) ?? null;
      return found === null ? null : ofRow(id, () => soundIn(found));
    }

    // Checks that a verdict was written, or throws the step that refuses it.
    #checkWritten(call, isRegistration, told, meanwhile) {
      answered(call, told, (one) => [0, 1, 15].includes(one), "0, 1 or 15");
      if (told !== 0) throw new Refused(isRegistration, told, told === 1 ? CLOSED : meanwhile);
    }

    // The credentials of an account that may sign in.
    async #own(user) {
      return (await this.rows(user)).filter(({ retired }) => !retired);
    }

    async registerBegin(user, userName, options) {
      const { exclude, ...how } = registrationOptionsIn(options), listed = exclude ?? fitting(await this.#own(checkUser(user)));
      return this.#begun("registration", this.#server.registerBegin(user, userName, { ...how, exclude: listed }));
    }

    async registerComplete(session, response) {
      const number = checkSession(session), begun = await this.#opened(number, "registration", RegistrationSession);
      const made = await this.#server.registerComplete(begun, response, { isRegistered: async (id) => (await this.#row(id)) !== null });
      this.#checkWritten("register", true, await this.#store.register(number, KeptCredential.registered(made, now())), "the credential was registered meanwhile");
      return made;
    }

    async authenticateBegin(options) {
      const { user = null, allow, ...how } = signInOptionsIn(options), own = allow === undefined && user !== null ? await this.#own(user) : [];
      return this.#begun("sign_in", this.#server.authenticateBegin({ ...how, user, allow: allow ?? allowed(own) }));
    }

    async authenticateComplete(session, response) {
      const number = checkSession(session), begun = await this.#opened(number, "sign_in", SignInSession);
      const signedIn = await this.#server.authenticateComplete(begun, response, { credential: (id) => this.#row(id) }), { before } = signedIn;
      const told = await this.#store.signIn(number, before.used(signedIn, now()), before.signCount);
      this.#checkWritten("signIn", false, told, "another sign-in of this credential was accepted meanwhile, or it was retired");
      return signedIn.stored();
    }

    async rows(user = null) {
      const found = answered("rows", await this.#store.rows(user === null ? null : checkUser(user)), Array.isArray, "a list of rows");
      return soundOf(found, (row) => ofRow(isBytes(row?.id) ? row.id : new Uint8Array(0), () => soundIn(row)), this.#logger);
    }

    // The answer for a change of one credential, and of an account if one is named.
    async #changed(call, id, user) {
      return answered(call, await this.#store[call](checkId(id), user === null ? null : checkUser(user)), isFlag, "true or false");
    }

    async #changedAll(call, user) {
      return answered(call, await this.#store[call](checkUser(user)), isCount, "a whole number");
    }

    async retire(id, user = null) {
      return this.#changed("retire", id, user);
    }

    async delete(id, user = null) {
      return this.#changed("delete", id, user);
    }

    async retireAll(user) {
      return this.#changedAll("retireAll", user);
    }

    async erase(user) {
      return this.#changedAll("erase", user);
    }

    async abandon(session) {
      const number = checkSession(session);
      return isNumber(number) && answered("abandon", await this.#store.abandon(number), isFlag, "true or false");
    }
  };
}
