// A relying party over the proved steps. It keeps nothing: the site stores the sessions and credentials.
import { BadInput } from "./errors.js";
import { REGISTRATION_MEMBERS, SIGN_IN_MEMBERS, bytesIn, toText, transportsOf } from "./forms.js";
import {
  ALGORITHMS, PROFILES, checkBytes, checkCredential, checkFlag, checkFunction, checkIds, checkParty, checkText, checkUser, memberOf, optionsIn, shown,
  transportsIn,
} from "./limits.js";
import { creationOptions, partyOptionsIn, registrationOptionsIn, requestOptions, residentKeyOf, signInOptionsIn, userVerificationOf } from "./options.js";
import { Credential, Registered, RegistrationSession, SignInSession, SignedIn, credentialIn, ofRow, rowError } from "./records.js";
import {
  ACCEPTED, BAD_SIGNATURE, BAD_STATEMENT, askedOfAssertion, askedOfRegistration, assertionImage, checkAnswer, handIn, isCanonical,
  judgeAssertion, judgeRegistration, keyFromCose, keyToCose, registrationImage,
} from "./verdicts.js";

const CHALLENGE = 32;

function ofBytes(text) {
  return new TextEncoder().encode(text);
}

function last(value, size) {
  return value.slice(value.length - size);
}

function found(value) {
  return value ?? null;
}

// A session of its own class, or null if none is open. A text counts as none, because the page's visitor may have written it.
function sessionOf(session, kind) {
  if (typeof session === "string") return null;
  if (found(session) === null || session instanceof kind) return found(session);
  const [other] = [RegistrationSession, SignInSession].filter((one) => one !== kind && session instanceof one);
  throw new BadInput(`the session is ${other === undefined ? shown(session) : `a ${other.name}`}, and no ${kind.name}: ${kind.name}.fromJSON(..) reads one that was kept as JSON`);
}

// The credential that was found, with its numbers in their limits, or null.
function credentialOf(credential) {
  if (found(credential) === null) return null;
  const stored = credentialIn(credential);
  checkCredential(stored);
  return stored;
}

// What the library reports of a credential's key.
const KEY_LIMITS = [104, 105, 106];
/** The class `Server` over a module, random bytes and signatures, which are Node's or WebCrypto's. `moduleOf()` returns the `Module` whose
 *  calls are made. */
export function serverOver(moduleOf, randomBytes, isValid) {
  return class Server {
    #party;

    constructor(rpId, origins, options) {
      this.origins = checkParty(rpId, origins);
      const { rpName, acceptNone, acceptSelf, profile, topOrigins, verify } = partyOptionsIn(options, "Server", { rpId, isValid });
      this.rpId = rpId;
      this.rpName = rpName;
      this.verify = verify;
      this.profile = profile;
      this.topOrigins = topOrigins;
      this.#party = { rpId: ofBytes(rpId), origins: this.origins.map(ofBytes), acceptNone, acceptSelf, profile: PROFILES.indexOf(profile),
                      topOrigins: this.topOrigins.map(ofBytes) };
    }

    registerBegin(user, userName, options) {
      const { exclude = [], algorithms = ALGORITHMS, userVerification: verified = "preferred", residentKey = "required", attestation = "none", conditional = false, ...how } =
        registrationOptionsIn(options);
      const userVerification = userVerificationOf(verified);
      const session = new RegistrationSession({
        challenge: randomBytes(CHALLENGE), user: checkUser(user), algorithms,
        userVerification: userVerification === "required", conditional, attestation: attestation !== "none",
      });
      const rp = { id: this.rpId, name: this.rpName };
      return { options: creationOptions(rp, session, userName, checkIds(exclude), { ...how, userVerification, residentKey: residentKeyOf(residentKey), attestation }), session };
    }

    async registerComplete(session, response, how) {
      const { isRegistered, isFull = false } = optionsIn(how, "registerComplete", ["isRegistered", "isFull"]);
      checkFunction(isRegistered, "isRegistered", "(id) => true or false");
      const parts = bytesIn(response, REGISTRATION_MEMBERS), transports = transportsIn(transportsOf(response));
      const isTaken = checkFlag(await isRegistered(parts.rawId.slice()), "what isRegistered answered");
      return this.#registered(session, { attestationObject: parts.attestationObject, clientData: parts.clientDataJSON },
                              { rawId: parts.rawId, isRegistered: isTaken, isFull: checkFlag(isFull, "isFull"), transports });
    }

    async registerCompleteParts(session, parts, how) {
      const { attestationObject, clientData } = optionsIn(parts, "registerCompleteParts", ["attestationObject", "clientData"]);
      const { rawId, isRegistered, isFull = false, transports = [] } =
        optionsIn(how, "registerCompleteParts", ["rawId", "isRegistered", "isFull", "transports"]);
      const response = { attestationObject: checkBytes(attestationObject, "attestationObject"),
                         clientData: checkBytes(clientData, "clientData") };
      return this.#registered(session, response, { rawId: checkBytes(rawId, "rawId"), isRegistered: checkFlag(isRegistered, "isRegistered"),
                                                   isFull: checkFlag(isFull, "isFull"), transports });
    }

    async #registered(session, response, { rawId, isRegistered, isFull, transports }) {
      const module = moduleOf(), begun = sessionOf(session, RegistrationSession), user = begun?.user.slice();
      const image = registrationImage(this.#party, begun, response, { rawId, isRegistered, isFull });
      const { told, answer } = await this.#judged(module, true, image, judgeRegistration, BAD_STATEMENT,
                                                 (at) => askedOfRegistration(module, at, this.#party, begun, response));
      checkAnswer(module, true, answer);
      const { id, algorithm, x, y, signCount, eligible, extensionsSize, ...rest } = told;
      const credential = new Credential({ id, user, algorithm, x, y, signCount, eligible, transports });
      return new Registered({ credential, ...rest, extensions: last(response.attestationObject, extensionsSize) });
    }

    authenticateBegin(options) {
      const { user = null, allow = [], userVerification: verified = "preferred", ...how } = signInOptionsIn(options), listed = checkIds(allow);
      const userVerification = userVerificationOf(verified);
      const session = new SignInSession({
        challenge: randomBytes(CHALLENGE), user: user === null ? null : checkUser(user), allow: listed.map(({ id }) => id),
        userVerification: userVerification === "required",
      });
      return { options: requestOptions(this.rpId, session, listed, userVerification, how), session };
    }

    async authenticateComplete(session, response, how) {
      const { credential } = optionsIn(how, "authenticateComplete", ["credential"]);
      checkFunction(credential, "credential", "(id) => the credential of this id, or null");
      const parts = bytesIn(response, SIGN_IN_MEMBERS, ["userHandle"]), { rawId } = parts;
      const row = await credential(rawId.slice()), stored = ofRow(rawId, () => credentialOf(row));
      const judged = this.#signedIn(session, stored, {
        rawId, user: found(parts.userHandle), authData: parts.authenticatorData, signature: parts.signature, clientData: parts.clientDataJSON,
      });
      return judged.catch((error) => Promise.reject(rowError(rawId, error, KEY_LIMITS)));
    }

    async authenticateCompleteParts(session, credential, parts) {
      const { rawId, user = null, authData, signature, clientData } =
        optionsIn(parts, "authenticateCompleteParts", ["rawId", "user", "authData", "signature", "clientData"]);
      return this.#signedIn(session, credentialOf(credential), {
        rawId: checkBytes(rawId, "rawId"), user: user === null ? null : checkBytes(user, "user"),
        authData: checkBytes(authData, "authData"), signature: checkBytes(signature, "signature"),
        clientData: checkBytes(clientData, "clientData"),
      });
    }

    async #signedIn(session, before, response) {
      const module = moduleOf(), begun = sessionOf(session, SignInSession);
      const image = assertionImage(this.#party, begun, before, response);
      const { told, answer } = await this.#judged(module, false, image, judgeAssertion, BAD_SIGNATURE,
                                                 (at) => askedOfAssertion(module, at, response));
      checkAnswer(module, false, answer);
      const { signCount, eligible, backedUp, userVerified, flags, extensionsSize } = told;
      return new SignedIn({ credential: before.received(signCount, eligible), before, backedUp, userVerified, flags,
                            extensions: last(response.authData, extensionsSize) });
    }

    relatedOrigins() {
      return { origins: this.origins.filter((origin) => origin.startsWith("https://")) };
    }

    signalUnknownCredential(id) {
      return { rpId: this.rpId, credentialId: toText(checkBytes(id, "id")) };
    }

    signalAllAccepted(user, credentials) {
      const isListed = (one) => !checkFlag(memberOf(Object(one), "retired") ?? false, "retired");
      const listed = checkIds(Array.isArray(credentials) ? credentials.filter(isListed) : credentials, Infinity);
      return { rpId: this.rpId, userId: toText(checkUser(user)), allAcceptedCredentialIds: listed.map(({ id }) => toText(id)) };
    }

    signalUserDetails(user, userName, displayName = userName) {
      return { rpId: this.rpId, userId: toText(checkUser(user)), name: checkText(userName, "userName"), displayName: checkText(displayName, "displayName") };
    }

    // The last answer: if the first one is that of the signature's step, the signature is verified, and if it is valid, the response is
    // verified again with it. While a promise is awaited, nothing of the call is in the module.
    async #judged(module, isRegistration, image, judge, signatureStep, ask) {
      try {
        const first = module.within(() => {
          const judged = judge(module, image);
          if (judged.answer === signatureStep) judged.asked = ask(judged.at);
          return judged;
        }, image);
        if (first.asked === null) return first;
        checkAnswer(module, isRegistration, first.asked.answer);
        const { signature } = first.asked;
        if (signature === null) return first;
        const { algorithm, x, y, message, signature: bytes } = signature;
        let valid = this.verify(algorithm, x, y, message, bytes);
        if (typeof valid !== "boolean") {
          module.clean();
          valid = await valid;
        }
        if (valid !== true) return first;
        handIn(image, isRegistration, signature);
        return module.within(() => judge(module, image), image);
      } finally {
        module.clean();
        image.end();
      }
    }
  };
}

/** The functions over a module that need no server. */
export function helpersOver(moduleOf) {
  return {
    isCanonical: (value) => isCanonical(moduleOf(), checkBytes(value, "the value")),
    credentialFromCose({ coseKey, ...rest }) {
      const key = keyFromCose(moduleOf(), checkBytes(coseKey, "coseKey"));
      if (key === null) throw new BadInput("the key is not a COSE_Key of ES256, EdDSA or RS256 in canonical CBOR");
      return new Credential({ ...rest, ...key });
    },
    coseKeyOf({ algorithm, x, y }) {
      const parts = { algorithm, x: checkBytes(x, "x"), y: checkBytes(y, "y") };
      const coseKey = ALGORITHMS.includes(algorithm) ? keyToCose(moduleOf(), parts) : [];
      if (coseKey.length === 0) throw new BadInput("the key is out of its limits");
      return coseKey;
    },
  };
}
