// Why a call is refused.

/** Marks a class, so that `instanceof` recognizes its values from each copy of this package: ES modules and CommonJS have one each. */
export function marked(kind, name) {
  const mark = Symbol.for(`garvoeng.${name}`);
  Object.defineProperty(kind.prototype, mark, { value: true });
  Object.defineProperty(kind, Symbol.hasInstance, {
    value(value) {
      return this === kind ? value?.[mark] === true : Function.prototype[Symbol.hasInstance].call(this, value);
    },
  });
}

export const SIGN_IN_STEPS = Object.freeze([
  "SessionNotOpen", "CredentialNotAllowed", "UnknownCredential", "OtherUser", "UnreadableClientData", "WrongType",
  "WrongChallenge", "WrongOrigin", "TokenBinding", "BadAuthenticatorData", "WrongRelyingParty", "UserNotPresent",
  "UserNotVerified", "BadSignature", "CounterNotGreater", "EligibilityChanged", "CrossOrigin", "WrongTopOrigin",
]);
export const REGISTRATION_STEPS = Object.freeze([
  "SessionNotOpen", "UnreadableClientData", "WrongType", "WrongChallenge", "WrongOrigin", "TokenBinding",
  "BadAttestationObject", "WrongRelyingParty", "UserNotPresent", "UserNotVerified", "AlgorithmNotOffered",
  "UnknownFormat", "BadStatement", "AttestationNotAccepted", "CredentialRegistered", "TableFull", "CrossOrigin", "WrongTopOrigin",
  "OtherId",
]);

/** A response is refused. The step is the first one of section 7.1 (registration) or 7.2 (sign-in) of WebAuthn that it does not pass. A
 *  step without a name here is named by its number, such as `G20`. */
export class Refused extends Error {
  constructor(isRegistration, number, text) {
    const name = `${isRegistration ? "G" : "W"}${number}`, step = (isRegistration ? REGISTRATION_STEPS : SIGN_IN_STEPS)[number - 1] ?? name;
    super(`${step}: ${text}`);
    this.isRegistration = isRegistration;
    this.number = number;
    this.step = step;
    this.name = name;
    this.code = "GARVOENG_REFUSED";
    this.text = text;
  }
}
marked(Refused, "Refused");

/** A value is out of its limits: one of the site's own, or a response that is not in the form of JSON. */
export class BadInput extends Error {
  constructor(text, number = 0) {
    super(text);
    this.name = "BadInput";
    this.code = "GARVOENG_BAD_INPUT";
    this.number = number;
    this.text = text;
  }
}
marked(BadInput, "BadInput");

/** Memory ran out. All of it is available again to the next call. */
export class NoMemory extends Error {
  constructor() {
    super("out of memory");
    this.name = "NoMemory";
    this.code = "GARVOENG_NO_MEMORY";
    this.number = 127;
  }
}
marked(NoMemory, "NoMemory");

/** The program or the database could not be reached, ended before it answered, or failed: the operation may or may not be done. The next
 *  call tries again. */
export class StoreFailed extends Error {
  constructor(text, options) {
    super(text, options);
    this.name = "StoreFailed";
    this.code = "GARVOENG_STORE_FAILED";
  }
}
marked(StoreFailed, "StoreFailed");

/** The row of a credential is not one that a site writes, and the visitor is not at fault: check the row with this id. */
export class RowDamaged extends Error {
  constructor(id, text, options) {
    super(text, options);
    this.name = "RowDamaged";
    this.code = "GARVOENG_ROW_DAMAGED";
    this.id = id;
  }
}
marked(RowDamaged, "RowDamaged");

/** The row of an open session is not one that a site writes: check the row of this session. */
export class SessionDamaged extends Error {
  constructor(session, text, options) {
    super(text, options);
    this.name = "SessionDamaged";
    this.code = "GARVOENG_SESSION_DAMAGED";
    this.session = session;
  }
}
marked(SessionDamaged, "SessionDamaged");

/** The result of `read` for a session's row. Whoever has the whole number could act as the visitor, so errors show only its front. */
export function ofSession(number, read) {
  try {
    return read();
  } catch (error) {
    if (!(error instanceof BadInput)) throw error;
    throw new SessionDamaged(number, `the row of the session ${number.slice(0, 8)} is damaged: ${error.message}`, { cause: error });
  }
}

/** Passes a value to the host's logger. Nobody can catch an error of the logger, so it is ignored. */
export function logTo(logger, value) {
  try {
    Promise.resolve(logger(value)).catch(() => {});
  } catch {}
}
