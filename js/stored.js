// A relying party whose credentials are kept in a SQLite file by the proved program passkey-site, which runs beside this process and
// answers lines of JSON. A session is a text that the program has sealed and that the visitor keeps.
import cluster from "node:cluster";
import { BadInput, Refused, StoreFailed } from "./errors.js";
import { REGISTRATION_MEMBERS, SIGN_IN_MEMBERS, fromText, handedOn, sealed, toText, transportsOf } from "./forms.js";
import {
  ALGORITHMS, MAX_LIST, MAX_STRICT_LIST, allowed, checkAlgorithms, checkFlag, checkFunction, checkId, checkIds, checkOneOf, checkParty, checkSession, checkUser, checkWhole, fitting,
  ownOf, shown, transportsIn,
} from "./limits.js";
import { prometheus } from "./metrics.js";
import { isValid } from "./node_signatures.js";
import { creationOptions, partyOptionsIn, registrationOptionsIn, requestOptions, residentKeyOf, signInOptionsIn, userVerificationOf } from "./options.js";
import { Program } from "./program.js";
import { Credential, KeptCredential, Registered, SignedIn } from "./records.js";
import { Shared } from "./shared.js";
import { AskedWebStore } from "./site_stores.js";
import { ProgramOfPrimary, serveWorkers } from "./workers.js";

const LOGS = [false, true, "refusals", "all"];

// The most credentials, and the most seconds of a session.
const MOST = 1_000_000;
const OWN = ["maxCredentials", "existing", "atLeast", "wary", "log", "lifetime", "timeout", "logger"];
// The flag BE: a sign-in whose flag differs from the row's is refused with W16.
const ELIGIBLE = 0x08;

function textOf(value, what) {
  if (typeof value !== "string" || value === "" || value.includes("\0")) throw new BadInput(`${what} is ${shown(value)}: write a text`);
  return value;
}

function numbered(option, value, what, least, most) {
  return value === undefined ? [] : [`--${option}=${checkWhole(value, what, least, most)}`];
}

function wordsOf(program, file, rpId, origins, how) {
  const { rpName, acceptNone, acceptSelf, profile, topOrigins, maxCredentials, existing = false, atLeast, wary = false, log = false, lifetime } = how;
  checkOneOf(log, "log", LOGS);
  return [
    textOf(program, "the program's path"), `--rp-id=${rpId}`, `--rp-name=${textOf(rpName, "rpName")}`, ...origins.map((origin) => `--origin=${origin}`),
    ...topOrigins.map((origin) => `--top-origin=${origin}`), `--profile=${profile}`, `--attestation=${acceptNone && acceptSelf ? "any" : acceptNone ? "none" : "self"}`,
    ...numbered("max-credentials", maxCredentials, "maxCredentials", 1, MOST),
    ...(checkFlag(existing, "existing") ? ["--existing"] : []), ...numbered("at-least", atLeast, "atLeast", 0), ...(checkFlag(wary, "wary") ? ["--wary"] : []),
    ...(log === false ? [] : [`--log=${log === true ? "refusals" : log}`]), ...numbered("expire", lifetime, "lifetime, in seconds,", 1, MOST), "--", textOf(file, "the file's path"),
  ];
}

// In PM2's cluster mode a worker asks PM2's own process, which does not answer.
function checkPrimary() {
  if (process.env.pm_id !== undefined)
    throw new BadInput("a StoredServer does not run in PM2's cluster mode, whose primary process is PM2's own: run one instance in fork mode, or use a SqlServer");
}

function bytesOf(value, ...names) {
  return names.map((name) => fromText(value[name], name));
}

function partsOf(row) {
  const [id, user, x, y] = bytesOf(row, "credential", "user", "x", "y");
  return { id, user, x, y, algorithm: row.algorithm, signCount: row.sign_count, eligible: row.eligible, retired: row.retired };
}

// A credential in the file, and what is known of it.
function keptOf(row) {
  return new KeptCredential({ ...partsOf(row), transports: row.transports, aaguid: row.aaguid === null ? null : fromText(row.aaguid, "aaguid"),
                              createdAt: row.created_at, usedAt: row.used_at });
}

// The credentials of a list; those without transports get the ones in the file.
function knownOf(listed, told) {
  return listed.map((one, at) => one.transports.length > 0 ? one : { ...one, transports: transportsIn(told[at]?.transports) });
}

function toldOf(accepted) {
  return { userVerified: accepted.user_verified, backedUp: accepted.backed_up, flags: accepted.flags,
           extensions: fromText(accepted.extensions ?? "", "extensions") };
}

/** A relying party over the file of the proved program. */
export class StoredServer {
  #program;
  #known;
  #mostListed;

  constructor(program, file, rpId, origins, options) {
    this.origins = checkParty(rpId, origins);
    const how = partyOptionsIn(options, "StoredServer", { rpId, isValid, more: OWN });
    const { rpName, verify, profile, timeout = 30_000, logger = console.error, atLeast = 0 } = how, words = wordsOf(program, file, rpId, this.origins, how);
    this.rpId = rpId;
    this.rpName = rpName;
    this.verify = verify;
    this.topOrigins = how.topOrigins;
    this.#known = atLeast;
    this.#mostListed = profile === "strict" ? MAX_STRICT_LIST : MAX_LIST;
    checkWhole(timeout, "timeout, in milliseconds,", 1, 0x7fffffff);
    checkFunction(logger, "logger", "(line) => console.error(line)");
    const key = JSON.stringify(words);
    if (cluster.isWorker) {
      checkPrimary();
      this.#program = new ProgramOfPrimary(key, timeout);
    } else {
      this.#program = new Shared(new Program(words, timeout, logger));
      serveWorkers(key, this.#program);
    }
    this.webStore = new AskedWebStore(async (call, ...words) => (await this.#ask("visitors", { call, words })).told);
  }

  async #ask(act, members = {}) {
    const answer = await this.#program.ask(act, members);
    if (Object.hasOwn(answer, "error")) throw new BadInput(String(answer.error));
    this.#known = Math.max(this.#known, answer.known ?? 0);
    return answer;
  }

  get known() {
    return this.#known;
  }

  // What was accepted, and what was verified for it. The program gives the signature to verify. It gets the signature back if it is valid,
  // and otherwise false, so that its log has the refusal.
  async #finish(act, session, response, more = {}) {
    const members = { session: sealed(session), response, ...more };
    let answer = await this.#ask(act, members), asked = null;
    if (answer.verify !== undefined) {
      asked = answer.verify;
      const valid = await this.verify(asked.algorithm, ...bytesOf(asked, "x", "y", "message", "signature"));
      answer = await this.#ask(act, { ...members, verified: valid === true ? asked : false });
    }
    if (answer.refused !== undefined) throw new Refused(act === "finish_registration", answer.refused.number, answer.refused.text);
    // A sign-in is accepted for a signature that was verified here, and for nothing else.
    if (typeof answer.accepted !== "object" || answer.accepted === null || (asked === null && act === "finish_sign_in"))
      throw new StoreFailed("the program's answer is not a verdict");
    return { accepted: answer.accepted, asked };
  }

  // The credentials of an account that may sign in.
  async #ofAccount(user) {
    return (await this.rows(user)).filter(({ retired }) => !retired);
  }

  async registerBegin(user, userName, options) {
    const { exclude, algorithms = ALGORITHMS, userVerification: verified = "preferred", residentKey: resident = "required", attestation = "none", conditional = false, ...how } =
      registrationOptionsIn(options);
    const userVerification = userVerificationOf(verified), residentKey = residentKeyOf(resident);
    const begun = { user: checkUser(user), algorithms: checkAlgorithms(algorithms) };
    const optionsOf = (challenge, list) => creationOptions({ id: this.rpId, name: this.rpName }, { ...begun, challenge }, userName, list,
                                                     { ...how, userVerification, residentKey, attestation });
    optionsOf(new Uint8Array(0), checkIds(exclude ?? [], this.#mostListed));
    checkFlag(conditional, "conditional");
    const listed = checkIds(exclude ?? fitting(await this.#ofAccount(begun.user), this.#mostListed), this.#mostListed);
    const { session, options: made } = await this.#ask("begin_registration", {
      user: toText(begun.user), user_name: userName, display_name: ownOf(how).displayName, exclude: listed.map(({ id }) => toText(id)),
      user_verification: userVerification === "required", resident: residentKey !== "discouraged", algorithms: begun.algorithms,
      conditional, attestation: attestation !== "none",
    });
    return { options: optionsOf(fromText(made.challenge, "challenge"), knownOf(listed, made.excludeCredentials)), session };
  }

  async registerComplete(session, response) {
    const text = checkSession(session), handed = handedOn(response, REGISTRATION_MEMBERS), transports = transportsIn(transportsOf(response));
    const { accepted } = await this.#finish("finish_registration", text, handed, { transports });
    const [aaguid] = bytesOf(accepted, "aaguid");
    return new Registered({ credential: new Credential({ ...partsOf(accepted), transports }), aaguid, format: accepted.format, ...toldOf(accepted) });
  }

  async authenticateBegin(options) {
    const { user = null, allow, userVerification: verified = "preferred", ...how } = signInOptionsIn(options), handle = user === null ? null : checkUser(user);
    const userVerification = userVerificationOf(verified);
    const optionsOf = (challenge, list) => requestOptions(this.rpId, { challenge }, list, userVerification, how);
    optionsOf(new Uint8Array(0), checkIds(allow ?? [], this.#mostListed));
    const own = allow === undefined && handle !== null ? await this.#ofAccount(handle) : [];
    const listed = checkIds(allow ?? allowed(own, this.#mostListed), this.#mostListed);
    const { session, options: made } = await this.#ask("begin_sign_in", {
      user: handle === null ? undefined : toText(handle), allow: listed.map(({ id }) => toText(id)),
      user_verification: userVerification === "required",
    });
    return { options: optionsOf(fromText(made.challenge, "challenge"), knownOf(listed, made.allowCredentials)), session };
  }

  async authenticateComplete(session, response) {
    const text = checkSession(session);
    const { accepted, asked } = await this.#finish("finish_sign_in", text, handedOn(response, SIGN_IN_MEMBERS, ["userHandle"]));
    const [id, user] = bytesOf(accepted, "credential", "user"), [x, y] = bytesOf(asked, "x", "y"), told = toldOf(accepted);
    // If the credential was deleted meanwhile, its transports are gone.
    const row = (await this.rows(user)).find((one) => toText(one.id) === accepted.credential);
    const credential = new Credential({ id, user, algorithm: asked.algorithm, x, y, signCount: accepted.sign_count, eligible: (told.flags & ELIGIBLE) !== 0,
                                        transports: row?.transports ?? [] });
    return new SignedIn({ credential, before: null, ...told });
  }

  // The answer to an act on a credential. If an account is named, the credential has to be its own.
  async #changed(act, id, user) {
    const credential = toText(checkId(id));
    if (user !== null && !(await this.rows(user)).some((row) => toText(row.id) === credential)) return {};
    return this.#ask(act, { credential });
  }

  async retire(id, user = null) {
    return (await this.#changed("retire", id, user)).retired === true;
  }

  async delete(id, user = null) {
    return (await this.#changed("delete", id, user)).deleted === true;
  }

  async retireAll(user) {
    return (await this.#ask("retire_all", { user: toText(checkUser(user)) })).retired_all;
  }

  async erase(user) {
    return (await this.#ask("erase", { user: toText(checkUser(user)) })).erased;
  }

  async abandon(session) {
    return (await this.#ask("abandon", { session: sealed(checkSession(session)) })).abandoned;
  }

  async rows(user = null) {
    const { rows } = await this.#ask("rows", user === null ? {} : { user: toText(checkUser(user)) });
    if (!Array.isArray(rows)) throw new StoreFailed("the program's answer is not a list of rows");
    return rows.map(keptOf);
  }

  async status() {
    const { status, known } = await this.#ask("status");
    return { ...status, known };
  }

  async metrics() {
    return prometheus(await this.status());
  }

  async backup(path) {
    await this.#ask("backup", { path: textOf(path, "the path") });
  }

  async close() {
    await this.#program.close();
  }
}
