// What a site keeps between calls, as values that a database can store.
import { BadInput, RowDamaged, logTo, marked } from "./errors.js";
import { fromText, toText } from "./forms.js";
import {
  ALGORITHMS, FORMATS, MAX_COUNT, checkAlgorithms, checkBytes, checkFlag, checkId, checkKey, checkUser, checkWhole, memberOf, optionsIn, ownOf, shown, transportsIn,
} from "./limits.js";

// The members of a JSON object, or of its text.
function objectOf(value, what) {
  const made = typeof value === "string" ? parsed(value, what) : value;
  if (typeof made !== "object" || made === null || Array.isArray(made)) throw new BadInput(`the ${what} is not an object`);
  return ownOf(made);
}

function parsed(text, what) {
  try {
    return JSON.parse(text);
  } catch {
    throw new BadInput(`the ${what} is not JSON`);
  }
}

function flagIn(value, name) {
  if (typeof value[name] !== "boolean") throw new BadInput(`${name} is not true or false`);
  return value[name];
}

function wholeIn(value, name, most) {
  if (!Number.isSafeInteger(value[name]) || value[name] < 0 || value[name] > most) throw new BadInput(`${name} is not a whole number up to ${most}`);
  return value[name];
}

const bytesIn = (value, name) => fromText(value[name], name);

// A member that may be null but may not be left out.
const orNull = (read) => (value, name, ...more) => (value[name] === null ? null : read(value, name, ...more));
const bytesOrNull = orNull(bytesIn), flagOrNull = orNull(flagIn), wholeOrNull = orNull(wholeIn);

const textOrNull = (value) => (value === null ? null : toText(value));

function aaguidIn(value) {
  const aaguid = bytesOrNull(value, "aaguid");
  if (aaguid !== null && aaguid.length !== 16) throw new BadInput("aaguid is not of 16 bytes");
  return aaguid;
}

/** What a registration that has begun expects. It accepts one response; then the site deletes it. */
export class RegistrationSession {
  constructor(members) {
    const { challenge, user, userVerification = false, algorithms = ALGORITHMS, conditional = false, attestation = true } =
      optionsIn(members, "RegistrationSession", ["challenge", "user", "userVerification", "algorithms", "conditional", "attestation"]);
    this.challenge = checkBytes(challenge, "challenge");
    this.user = checkBytes(user, "user");
    this.userVerification = checkFlag(userVerification, "userVerification");
    this.algorithms = checkAlgorithms(algorithms);
    this.conditional = checkFlag(conditional, "conditional");
    this.attestation = checkFlag(attestation, "attestation");
    Object.freeze(this);
  }

  toJSON() {
    return { challenge: toText(this.challenge), user: toText(this.user), user_verification: this.userVerification,
             algorithms: this.algorithms, conditional: this.conditional, attestation: this.attestation };
  }

  /** Reads a session from the result of `toJSON`, or from its text. Throws `BadInput`. */
  static fromJSON(json) {
    // An older session has neither of these.
    const value = ownOf({ conditional: false, attestation: true, ...objectOf(json, "session") });
    return new RegistrationSession({ challenge: bytesIn(value, "challenge"), user: bytesIn(value, "user"),
                                     userVerification: flagIn(value, "user_verification"), algorithms: checkAlgorithms(value.algorithms),
                                     conditional: flagIn(value, "conditional"), attestation: flagIn(value, "attestation") });
  }
}
marked(RegistrationSession, "RegistrationSession");

/** What a sign-in that has begun expects. It accepts one response; then the site deletes it. */
export class SignInSession {
  constructor(members) {
    const { challenge, user = null, allow = [], userVerification = false } =
      optionsIn(members, "SignInSession", ["challenge", "user", "allow", "userVerification"]);
    if (!Array.isArray(allow)) throw new BadInput("allow is not an array");
    this.challenge = checkBytes(challenge, "challenge");
    this.user = user === null ? null : checkBytes(user, "user");
    this.allow = Object.freeze(allow.map((id) => checkBytes(id, "allow")));
    this.userVerification = checkFlag(userVerification, "userVerification");
    Object.freeze(this);
  }

  toJSON() {
    return { challenge: toText(this.challenge), user: textOrNull(this.user), allow: this.allow.map(toText),
             user_verification: this.userVerification };
  }

  /** Reads a session from the result of `toJSON`, or from its text. Throws `BadInput`. */
  static fromJSON(json) {
    const value = objectOf(json, "session");
    if (!Array.isArray(value.allow)) throw new BadInput("allow is not an array");
    return new SignInSession({ challenge: bytesIn(value, "challenge"), user: bytesOrNull(value, "user"),
                               allow: value.allow.map((id) => fromText(id, "allow")),
                               userVerification: flagIn(value, "user_verification") });
  }
}
marked(SignInSession, "SignInSession");

const MEMBERS = ["id", "user", "algorithm", "x", "y", "signCount", "eligible", "retired", "transports"];
const KEPT = ["aaguid", "backedUp", "createdAt", "usedAt"];

/** A registered credential. */
export class Credential {
  constructor(members) {
    const { id, user, algorithm, x, y, signCount, eligible = null, retired = false, transports = [] } = optionsIn(members, "Credential", MEMBERS);
    this.id = checkBytes(id, "id");
    this.user = checkBytes(user, "user");
    this.algorithm = algorithm;
    this.x = checkBytes(x, "x");
    this.y = checkBytes(y, "y");
    this.signCount = signCount;
    this.eligible = eligible === null ? null : checkFlag(eligible, "eligible");
    this.retired = checkFlag(retired, "retired");
    this.transports = transportsIn(transports);
    Object.freeze(this);
  }

  /** The same with the results of a sign-in. */
  received(signCount, eligible) {
    const { id, user, algorithm, x, y, retired, transports } = this;
    return madeOf(Credential, { id, user, algorithm, x, y, signCount, eligible, retired, transports });
  }

  toJSON() {
    return { id: toText(this.id), user: toText(this.user), algorithm: this.algorithm, x: toText(this.x), y: toText(this.y), sign_count: this.signCount,
             eligible: this.eligible, retired: this.retired, transports: this.transports };
  }

  /** Reads a credential from the result of `toJSON`, or from its text. Members with other names are ignored. Throws `BadInput`. */
  static fromJSON(json) {
    return new Credential(credentialInJson(objectOf(json, "credential")));
  }
}
marked(Credential, "Credential");

// A value of a class, from members that are in their limits.
function madeOf(kind, members) {
  return Object.freeze(Object.assign(Object.create(kind.prototype), members));
}

function credentialInJson(value) {
  const { algorithm, transports } = value, x = bytesIn(value, "x"), y = bytesIn(value, "y"), kept = transportsIn(transports);
  checkKey({ algorithm, x, y });
  if (!Array.isArray(transports) || kept.length !== transports.length) throw new BadInput('transports are not a list of texts, as ["usb"]');
  return { id: checkId(bytesIn(value, "id")), user: checkUser(bytesIn(value, "user")), algorithm, x, y, signCount: wholeIn(value, "sign_count", MAX_COUNT),
           eligible: flagOrNull(value, "eligible"), retired: flagIn(value, "retired"), transports: kept };
}

/** A credential's row, and what is known of it. Values that were never kept are null. */
export class KeptCredential extends Credential {
  constructor(members) {
    const { aaguid = null, backedUp = null, createdAt = null, usedAt = null, ...rest } = optionsIn(members, "KeptCredential", [...MEMBERS, ...KEPT]);
    super(rest);
    return madeOf(new.target, {
      ...this, aaguid: aaguid === null ? null : checkBytes(aaguid, "aaguid"), backedUp: backedUp === null ? null : checkFlag(backedUp, "backedUp"),
      createdAt: createdAt === null ? null : checkWhole(createdAt, "createdAt", 0), usedAt: usedAt === null ? null : checkWhole(usedAt, "usedAt", 0),
    });
  }

  toJSON() {
    return { ...super.toJSON(), aaguid: textOrNull(this.aaguid), backed_up: this.backedUp, created_at: this.createdAt, used_at: this.usedAt };
  }

  /** Reads a row from the result of `toJSON`, or from its text. Throws `BadInput`, also for a mere `Credential`. */
  static fromJSON(json) {
    const value = objectOf(json, "credential");
    return new KeptCredential({ ...credentialInJson(value), aaguid: aaguidIn(value), backedUp: flagOrNull(value, "backed_up"),
                                createdAt: wholeOrNull(value, "created_at", Number.MAX_SAFE_INTEGER), usedAt: wholeOrNull(value, "used_at", Number.MAX_SAFE_INTEGER) });
  }

  /** The row for a registration that was accepted at a second since 1970. */
  static registered({ credential, aaguid, backedUp }, createdAt) {
    return madeOf(KeptCredential, { ...credential, aaguid, backedUp, createdAt, usedAt: null });
  }

  /** The same after a sign-in. */
  used({ credential, backedUp }, usedAt) {
    return madeOf(KeptCredential, { ...this, signCount: credential.signCount, eligible: credential.eligible, backedUp, usedAt });
  }
}
marked(KeptCredential, "KeptCredential");

// What the authenticator reported, to JSON and back.
const toldOf = ({ userVerified, backedUp, flags, extensions }) => ({ user_verified: userVerified, backed_up: backedUp, flags, extensions: toText(extensions) });
const toldIn = (value) => ({ userVerified: flagIn(value, "user_verified"), backedUp: flagIn(value, "backed_up"), flags: wholeIn(value, "flags", 255),
                             extensions: bytesIn(value, "extensions") });
function credentialOf(value, name) {
  if (typeof value[name] !== "object") throw new BadInput(`${name} is not an object`);
  return Credential.fromJSON(value[name]);
}

/** An accepted registration. */
export class Registered {
  constructor({ credential, aaguid, format, userVerified, backedUp, flags, extensions }) {
    return madeOf(Registered, { credential, aaguid, format, userVerified, backedUp, flags, extensions });
  }

  toJSON() {
    return { credential: this.credential.toJSON(), aaguid: toText(this.aaguid), format: this.format, ...toldOf(this) };
  }

  /** Reads a registration from the result of `toJSON`, or from its text. Throws `BadInput`, also for a sign-in. */
  static fromJSON(json) {
    const value = objectOf(json, "registration"), aaguid = aaguidIn(value);
    if (!FORMATS.includes(value.format)) throw new BadInput(`format is one of ${FORMATS.join(", ")}`);
    if (aaguid === null) throw new BadInput("aaguid is not a text");
    return new Registered({ credential: credentialOf(value, "credential"), aaguid, format: value.format, ...toldIn(value) });
  }
}
marked(Registered, "Registered");

/** An accepted sign-in. */
export class SignedIn {
  constructor({ credential, before, userVerified, backedUp, flags, extensions }) {
    return madeOf(SignedIn, { credential, before, userVerified, backedUp, flags, extensions });
  }

  /** The same for a server that has stored it. */
  stored() {
    return new SignedIn({ ...this, before: null });
  }

  toJSON() {
    return { credential: this.credential.toJSON(), before: this.before === null ? null : this.before.toJSON(), ...toldOf(this) };
  }

  /** Reads a sign-in from the result of `toJSON`, or from its text. Throws `BadInput`, also for a registration. */
  static fromJSON(json) {
    const value = objectOf(json, "sign-in");
    return new SignedIn({ credential: credentialOf(value, "credential"), before: value.before === null ? null : credentialOf(value, "before"), ...toldIn(value) });
  }
}
marked(SignedIn, "SignedIn");

/** The credential in a host's row, which may have more members, of the host's own. */
export function credentialIn(row) {
  if (row instanceof Credential) return row;
  if (typeof row !== "object") throw new BadInput(`the credential is ${shown(row)}: write a Credential, or null`);
  return new Credential(Object.fromEntries(MEMBERS.map((name) => [name, memberOf(row, name)])));
}

/** The session in a row. */
export function openIn(kind, json) {
  const session = kind.fromJSON(json);
  if (session.challenge.length !== 32) throw new BadInput("the challenge is not of 32 bytes");
  return session;
}

/** A host's own row, which may have more members, checked against its limits. */
export function soundIn(row) {
  if (typeof row !== "object" || row === null) throw new BadInput(`the row is ${shown(row)}: write a KeptCredential`);
  const made = row instanceof KeptCredential ? row : new KeptCredential(Object.fromEntries([...MEMBERS, ...KEPT].map((name) => [name, memberOf(row, name)])));
  return KeptCredential.fromJSON(made.toJSON());
}

/** What to throw if the row of an id led to this error: `RowDamaged` in place of each `BadInput`, or of those with these numbers. */
export function rowError(id, error, numbers = null) {
  if (!(error instanceof BadInput) || numbers?.includes(error.number) === false) return error;
  return new RowDamaged(id, `the row of the credential ${toText(id)} is damaged: ${error.message}`, { cause: error });
}

/** The results of `read` for rows. A damaged row is left out and logged. */
export function soundOf(rows, read, logger) {
  return Array.from(rows).flatMap((row) => {
    try {
      return [read(row)];
    } catch (error) {
      if (!(error instanceof RowDamaged)) throw error;
      logTo(logger, error);
      return [];
    }
  });
}

/** The result of `make` for the row of an id. */
export function ofRow(id, make) {
  try {
    return make();
  } catch (error) {
    throw rowError(id, error);
  }
}
