// The package without Node. What `index.d.ts` adds to it is for Node only.

/** Base64url without padding. Throws `BadInput` if the value is not a Uint8Array. */
export function toText(value: Uint8Array): string;
/** The bytes of canonical base64url text without padding. Throws `BadInput`, which names `what`. */
export function fromText(text: string, what?: string): Uint8Array;

/** COSE numbers (RFC 9053, sections 2.1 and 2.2; RFC 8812, section 2). */
export const ES256: -7;
export const EDDSA: -8;
export const RS256: -257;
/** The most credential ids in a list of `Server`. */
export const MAX_LIST: 64;

export type Awaitable<T> = T | Promise<T>;
/** `true` means `required`; `false` means `preferred` for a verification, and `discouraged` for `residentKey`. */
export type Requirement = boolean | "required" | "preferred" | "discouraged";

// The forms of JSON that pages and sites exchange (WebAuthn Level 3, sections 5.1 and 5.10), each value of bytes in base64url.

export interface PublicKeyCredentialDescriptorJSON {
  type: "public-key";
  id: string;
  transports?: readonly string[];
}

export interface PublicKeyCredentialCreationOptionsJSON {
  rp: { id: string; name: string };
  user: { id: string; name: string; displayName: string };
  challenge: string;
  pubKeyCredParams: { type: "public-key"; alg: number }[];
  timeout?: number;
  excludeCredentials: PublicKeyCredentialDescriptorJSON[];
  authenticatorSelection: {
    authenticatorAttachment?: "platform" | "cross-platform";
    residentKey: "required" | "preferred" | "discouraged";
    requireResidentKey: boolean;
    userVerification: "required" | "preferred" | "discouraged";
  };
  hints?: ("security-key" | "client-device" | "hybrid")[];
  attestation: "none" | "indirect" | "direct" | "enterprise";
  extensions?: object;
}

export interface PublicKeyCredentialRequestOptionsJSON {
  challenge: string;
  timeout?: number;
  rpId: string;
  allowCredentials: PublicKeyCredentialDescriptorJSON[];
  userVerification: "required" | "preferred" | "discouraged";
  hints?: ("security-key" | "client-device" | "hybrid")[];
  extensions?: object;
}

interface ResponseJSON<Parts> {
  id: string;
  rawId: string;
  type: "public-key";
  response: Parts;
  authenticatorAttachment?: string | null;
  clientExtensionResults: object;
}

export type RegistrationResponseJSON = ResponseJSON<{
  clientDataJSON: string;
  attestationObject: string;
  authenticatorData?: string;
  transports?: string[];
  publicKey?: string;
  publicKeyAlgorithm?: number;
}>;

export type AuthenticationResponseJSON = ResponseJSON<{
  clientDataJSON: string;
  authenticatorData: string;
  signature: string;
  userHandle?: string | null;
}>;

/** What a registration that has begun expects. It accepts one response; then the site deletes it. */
export class RegistrationSession {
  constructor(members: { challenge: Uint8Array; user: Uint8Array; userVerification?: boolean; algorithms?: readonly number[];
                         conditional?: boolean; attestation?: boolean });
  /** 32 bytes that no other session has. */
  readonly challenge: Uint8Array;
  /** The user handle: 1 to 64 bytes. */
  readonly user: Uint8Array;
  readonly userVerification: boolean;
  readonly algorithms: readonly number[];
  /** Whether a browser may answer by itself, so that the user need not be present. Only for the profile `level3`. */
  readonly conditional: boolean;
  /** Whether an attestation was asked for. If not, the profile `level3` does not look at the statement. */
  readonly attestation: boolean;
  toJSON(): object;
  /** Reads a session from the result of `toJSON`, or from its text. Throws `BadInput`. */
  static fromJSON(json: unknown): RegistrationSession;
}

/** What a sign-in that has begun expects. It accepts one response; then the site deletes it. */
export class SignInSession {
  constructor(members: { challenge: Uint8Array; user?: Uint8Array | null; allow?: readonly Uint8Array[]; userVerification?: boolean });
  /** 32 bytes that no other session has. */
  readonly challenge: Uint8Array;
  /** The account's user handle, if it is known beforehand. */
  readonly user: Uint8Array | null;
  /** The ids of the credentials that may answer; empty for any. */
  readonly allow: readonly Uint8Array[];
  readonly userVerification: boolean;
  toJSON(): object;
  /** Reads a session from the result of `toJSON`, or from its text. Throws `BadInput`. */
  static fromJSON(json: unknown): SignInSession;
}

export interface CredentialMembers {
  readonly id: Uint8Array;
  /** The user handle. */
  readonly user: Uint8Array;
  /** The public key's algorithm: `ES256`, `EDDSA` or `RS256`. */
  readonly algorithm: number;
  /** 32 bytes; for RS256 the modulus, big-endian, 256, 384 or 512 bytes. */
  readonly x: Uint8Array;
  /** 32 bytes; empty for EdDSA; for RS256 the public exponent, big-endian, 1 to 4 bytes. */
  readonly y: Uint8Array;
  /** The signature counter received last, below 2^32. */
  readonly signCount: number;
  /** Whether it is eligible for backup; null if that is not known. */
  readonly eligible?: boolean | null;
  /** Whether it can no longer sign in. */
  readonly retired?: boolean;
  /** How the browser reaches it, as the page reported it: at most 16 texts. */
  readonly transports?: readonly string[];
}

/** A registered credential. */
export class Credential implements CredentialMembers {
  constructor(members: CredentialMembers);
  readonly id: Uint8Array;
  readonly user: Uint8Array;
  readonly algorithm: number;
  readonly x: Uint8Array;
  readonly y: Uint8Array;
  readonly signCount: number;
  readonly eligible: boolean | null;
  readonly retired: boolean;
  readonly transports: readonly string[];
  /** JSON values, with bytes in base64url, as from Python's `to_json`. */
  toJSON(): object;
  /** Reads a credential from the result of `toJSON`, or from its text. Members with other names are ignored. Throws `BadInput`. */
  static fromJSON(json: unknown): Credential;
}

export interface KeptMembers extends CredentialMembers {
  /** The model of the authenticator, as it reports it: 16 bytes. */
  readonly aaguid?: Uint8Array | null;
  /** Whether it was backed up at the last sign-in (BS). The file of `StoredServer` does not have it. */
  readonly backedUp?: boolean | null;
  /** When it was registered, in seconds since 1970. */
  readonly createdAt?: number | null;
  /** When it last signed in, in seconds since 1970; null if it never did. */
  readonly usedAt?: number | null;
}

/** A credential's row, and what is known of it. Values that were never kept are null. */
export class KeptCredential extends Credential {
  constructor(members: KeptMembers);
  readonly aaguid: Uint8Array | null;
  readonly backedUp: boolean | null;
  readonly createdAt: number | null;
  readonly usedAt: number | null;
  /** Reads a row from the result of `toJSON`, or from its text. Throws `BadInput`, also for a mere `Credential`. */
  static fromJSON(json: unknown): KeptCredential;
}

export interface Told {
  /** Whether the credential is backed up now (BS). */
  readonly backedUp: boolean;
  /** Whether the user was verified (UV). */
  readonly userVerified: boolean;
  /** The flag bits of the authenticator data (WebAuthn Level 2, section 6.1). */
  readonly flags: number;
  /** The authenticator's extension outputs, one CBOR map; empty if there are none. */
  readonly extensions: Uint8Array;
}

/** An accepted registration. */
export class Registered implements Told {
  constructor(members: Told & Pick<Registered, "credential" | "aaguid" | "format">);
  readonly backedUp: boolean;
  readonly userVerified: boolean;
  readonly flags: number;
  readonly extensions: Uint8Array;
  /** To store. */
  readonly credential: Credential;
  /** The model of the authenticator, as it reports it: 16 bytes. */
  readonly aaguid: Uint8Array;
  /** How the credential is attested: not at all, or with a signature of its own key. */
  readonly format: "none" | "packed";
  toJSON(): object;
  /** Reads a registration from the result of `toJSON`, or from its text. Throws `BadInput`, also for a sign-in. */
  static fromJSON(json: unknown): Registered;
}

/** An accepted sign-in. */
export class SignedIn implements Told {
  constructor(members: Told & Pick<SignedIn, "credential" | "before">);
  readonly backedUp: boolean;
  readonly userVerified: boolean;
  readonly flags: number;
  readonly extensions: Uint8Array;
  /** The credential with the counter that was received. With `Server` this is what to store from now on; the other servers have stored
   *  it. */
  readonly credential: Credential;
  /** With `Server`, the credential that was verified against. Store the new one only if the stored one still has this counter and is not
   *  retired, in one transaction with the end of the session. Null with a server that has done so. */
  readonly before: Credential | null;
  toJSON(): object;
  /** Reads a sign-in from the result of `toJSON`, or from its text. Throws `BadInput`, also for a registration. */
  static fromJSON(json: unknown): SignedIn;
}

/** A list of ids, or of values that have them. */
export type Ids = readonly (Uint8Array | { readonly id: Uint8Array; readonly transports?: readonly string[] })[];

export interface OptionsOfBoth {
  /** Whether the user has to be verified; `preferred`. */
  userVerification?: Requirement;
  /** Milliseconds. */
  timeout?: number;
  hints?: readonly ("security-key" | "client-device" | "hybrid")[];
  extensions?: object;
}

export interface RegistrationOptions extends OptionsOfBoth {
  /** The user's name for display, if it differs. */
  displayName?: string;
  /** The account's credentials: at most 64. */
  exclude?: Ids;
  /** The COSE numbers to offer: all three. */
  algorithms?: readonly number[];
  /** Whether the key keeps the credential; `required`. */
  residentKey?: Requirement;
  authenticatorAttachment?: "platform" | "cross-platform";
  /** Which attestation to ask for: `none`. In the profile `level3` the statement is then not looked at. */
  attestation?: "none" | "indirect" | "direct" | "enterprise";
  /** For a page that lets the browser make a passkey by itself after another sign-in (WebAuthn Level 3, section 5.1.3, `mediation`): then
   *  nobody need be present. Used in the profile `level3`. */
  conditional?: boolean;
}

export interface SignInOptions extends OptionsOfBoth {
  /** The account's user handle, if it is known. */
  user?: Uint8Array | null;
  /** The credentials that may answer, at most 64; empty for any. */
  allow?: Ids;
}

/** Whether a signature is valid: only `true` counts. */
export type Verify = (algorithm: number, x: Uint8Array, y: Uint8Array, message: Uint8Array, signature: Uint8Array) => Awaitable<boolean>;

export interface ServerOptions {
  /** The rp id. */
  rpName?: string;
  /** Which attestation is accepted: both. */
  acceptNone?: boolean;
  acceptSelf?: boolean;
  /** Which responses are accepted: `level3`, as browsers send them today, `open` or `strict` (docs/LIMITS.md). */
  profile?: "level3" | "open" | "strict";
  /** The origins of other sites' pages that may have this site's in a frame: none. In `level3` a response that was made in any other
   *  frame is refused. */
  topOrigins?: readonly string[];
  verify?: Verify;
}

/** A relying party: an rp id and the origins of its pages. It keeps nothing. */
export class Server {
  constructor(rpId: string, origins: readonly string[], options?: ServerOptions);
  readonly rpId: string;
  readonly rpName: string;
  readonly origins: readonly string[];
  /** Returns the options for the page, PublicKeyCredentialCreationOptionsJSON, and the session, which the site keeps. `user` is the user
   *  handle: 1 to 64 bytes that name nobody. */
  registerBegin(user: Uint8Array, userName: string, options?: RegistrationOptions): { options: PublicKeyCredentialCreationOptionsJSON; session: RegistrationSession };
  /** Resolves to what a RegistrationResponseJSON registers. `session` is null if none is open; a text counts as null. `isRegistered(id)`
   *  returns true or false: whether a credential has the id, of any user, retired or not. Rejects with `Refused`, `BadInput` or
   *  `NoMemory`. */
  registerComplete(session: RegistrationSession | null, response: unknown,
                   how: { isRegistered: (id: Uint8Array) => Awaitable<boolean>; isFull?: boolean }): Promise<Registered>;
  /** The same for the parts of the response. `rawId` is the response's, and `isRegistered` says whether a credential has it. */
  registerCompleteParts(session: RegistrationSession | null, parts: { attestationObject: Uint8Array; clientData: Uint8Array },
                        how: { rawId: Uint8Array; isRegistered: boolean; isFull?: boolean; transports?: readonly string[] }): Promise<Registered>;
  /** Returns the options for the page, PublicKeyCredentialRequestOptionsJSON, and the session, which the site keeps. */
  authenticateBegin(options?: SignInOptions): { options: PublicKeyCredentialRequestOptionsJSON; session: SignInSession };
  /** Resolves to who signed in with an AuthenticationResponseJSON. `credential(id)` returns the site's credential with this id, or null; it
   *  may have more members, of the site's own. Rejects with `Refused`, `BadInput`, `NoMemory`, or `RowDamaged` if it is not a
   *  credential. */
  authenticateComplete(session: SignInSession | null, response: unknown,
                       how: { credential: (id: Uint8Array) => Awaitable<CredentialMembers | null | undefined> }): Promise<SignedIn>;
  /** The same for the parts of the response and the credential that was found. */
  authenticateCompleteParts(session: SignInSession | null, credential: CredentialMembers | null, parts: {
    rawId: Uint8Array; user?: Uint8Array | null; authData: Uint8Array; signature: Uint8Array; clientData: Uint8Array;
  }): Promise<SignedIn>;
  readonly profile: "level3" | "open" | "strict";
  readonly topOrigins: readonly string[];
  /** The body for `https://RP_ID/.well-known/webauthn`, which lets pages of these origins use this rp id (WebAuthn Level 3, section
   *  5.11). */
  relatedOrigins(): { origins: string[] };
  /** What the page passes to `PublicKeyCredential.signalUnknownCredential` after a sign-in was refused with W3 (section 5.1.10). */
  signalUnknownCredential(id: Uint8Array): { rpId: string; credentialId: string };
  /** What the page passes to `signalAllAcceptedCredentials`, for a user who is signed in: all of the user's credentials, or their ids.
   *  Retired ones are left out. The authenticator hides or deletes a passkey that is left out. */
  signalAllAccepted(user: Uint8Array, credentials: Ids): { rpId: string; userId: string; allAcceptedCredentialIds: string[] };
  /** What the page passes to `signalCurrentUserDetails` when an account's names have changed. */
  signalUserDetails(user: Uint8Array, userName: string, displayName?: string): { rpId: string; userId: string; name: string; displayName: string };
}

/** A sign-in that a `WebStore` has stored. */
export interface KeptSignIn {
  readonly number: string;
  readonly user: Uint8Array;
  readonly credential: Uint8Array | null;
  /** Seconds since 1970. */
  readonly at: number;
}

/** Stores the sign-ins, the names of passkeys, and a secret. */
export interface WebStore {
  /** Whether `signedIn` leaves out a visitor whose passkey is retired or deleted; if not, the core asks the server. */
  readonly looksUp: boolean;
  /** Returns 32 bytes that all processes of the site have, and nobody else. */
  secret(): Awaitable<Uint8Array>;
  /** Stores that a visitor is signed in as this user, for `lifetime` seconds. Returns a number that nobody can guess. `credential` is null
   *  if the visitor did not use a passkey. */
  keepSignIn(user: Uint8Array, credential: Uint8Array | null, lifetime: number): Awaitable<string>;
  /** The visitor who is signed in by this number, or null. */
  signedIn(number: string): Awaitable<KeptSignIn | null>;
  /** Ends a sign-in. Returns whether it was there. */
  abandon(number: string): Awaitable<boolean>;
  /** A user's names for passkeys, by their ids as text (`toText`). */
  names(user: Uint8Array): Awaitable<ReadonlyMap<string, string>>;
  /** Names a passkey. An empty name removes the name. */
  rename(user: Uint8Array, credential: Uint8Array, name: string): Awaitable<void>;
  /** Ends a user's sign-ins, and forgets the names. A site calls it together with `erase` of the server that keeps the passkeys. */
  erase(user: Uint8Array): Awaitable<unknown>;
}

/** The common interface of `KeepingServer`, `SqlServer` and `StoredServer`. To change its storage, a site written for it changes only the
 *  line that makes the server. `session` is a text that only its visitor may have, or null: no session is open for any other text, and a
 *  value of another type is `BadInput`. Each call may reject with `StoreFailed`, and for a damaged row with `RowDamaged` or
 *  `SessionDamaged`. */
export interface PasskeyServer {
  readonly origins: readonly string[];
  /** The origins of the pages that may have the site's in a frame. */
  readonly topOrigins: readonly string[];
  /** As in `Server`. Without `exclude`, the account's own credentials are excluded, the first that there is room for. */
  registerBegin(user: Uint8Array, userName: string, options?: RegistrationOptions): Promise<{ options: PublicKeyCredentialCreationOptionsJSON; session: string }>;
  /** Resolves to what a RegistrationResponseJSON registers, after storing it and closing the session. Rejects with `Refused`, `BadInput` or
   *  `NoMemory`. */
  registerComplete(session: string | null, response: unknown): Promise<Registered>;
  /** As in `Server`. With `user` and without `allow`, the account's own credentials are listed; if there are too many, any of them that the
   *  browser finds may answer. */
  authenticateBegin(options?: SignInOptions): Promise<{ options: PublicKeyCredentialRequestOptionsJSON; session: string }>;
  /** Resolves to who signed in with an AuthenticationResponseJSON, after storing the counter and closing the session. Rejects like
   *  `registerComplete`. */
  authenticateComplete(session: string | null, response: unknown): Promise<SignedIn>;
  /** The credentials of a user, or all, including retired ones, in order of registration. */
  rows(user?: Uint8Array | null): Promise<KeptCredential[]>;
  /** Retires a credential: it can't sign in any more, and its id stays taken. Resolves to whether it could until now. Its account's open
   *  registrations end. With `user`, a credential of another account is left as it is. */
  retire(id: Uint8Array, user?: Uint8Array | null): Promise<boolean>;
  /** Retires an account's credentials, and ends its open registrations. Resolves to how many could sign in until now. */
  retireAll(user: Uint8Array): Promise<number>;
  /** Forgets a credential; anybody may register its id again. Resolves to whether it was there. Its account's open registrations end.
   *  `user` is as in `retire`. */
  delete(id: Uint8Array, user?: Uint8Array | null): Promise<boolean>;
  /** Forgets an account's credentials, and ends its open registrations. Resolves to how many there were. */
  erase(user: Uint8Array): Promise<number>;
  /** Ends a session. Resolves to whether it was open. */
  abandon(session: string | null): Promise<boolean>;
}

/** A session as a `Store` keeps it. */
export interface OpenSession {
  /** 32 hexadecimal digits that only its visitor has. */
  readonly number: string;
  readonly kind: "registration" | "sign_in";
  /** The user handle, if the account is known. */
  readonly user: Uint8Array | null;
  /** A text that `session` returns unchanged. */
  readonly data: string;
  /** Seconds since 1970. The server ignores a session that has ended; the store may delete it. */
  readonly endsAt: number;
}

/** A site's own storage: rows of an ORM, of a database, of a file. Each call is one change, done completely or not at all, even with
 *  concurrent calls: in a database, one transaction. The site may write other rows of its own in the same transaction. */
export interface Store {
  /** Adds a session. */
  begin(session: OpenSession): Awaitable<void>;
  /** The session with this number, or null. */
  session(number: string): Awaitable<OpenSession | null | undefined>;
  /** Deletes the session, adds the row and returns 0. Returns 1 if the session is not there, and 15 if a row has the id, of any user,
   *  retired or not; then nothing is changed. */
  register(number: string, row: KeptCredential): Awaitable<0 | 1 | 15>;
  /** Deletes the session, replaces the row with this id by the new one and returns 0. Returns 1 if the session is not there, and 15 if that
   *  row is not there, is retired, or has a `signCount` other than this one; then nothing is changed. */
  signIn(number: string, row: KeptCredential, signCount: number): Awaitable<0 | 1 | 15>;
  /** Deletes a session. Returns whether it was there. */
  abandon(number: string): Awaitable<boolean>;
  /** The row with this id, or null. It may have more members, of the site's own. */
  row(id: Uint8Array): Awaitable<KeptMembers | null | undefined>;
  /** The rows of a user, or all, in order of registration. */
  rows(user: Uint8Array | null): Awaitable<readonly KeptMembers[]>;
  /** Sets `retired` of a row to true, if it is not, and deletes the sessions of its user whose kind is `registration`. Returns whether it
   *  did. With `user`, the row of another user is left as it is. */
  retire(id: Uint8Array, user: Uint8Array | null): Awaitable<boolean>;
  /** The same for all rows of a user. Returns how many were not retired. */
  retireAll(user: Uint8Array): Awaitable<number>;
  /** Deletes a row, and the sessions of its user whose kind is `registration`. Returns whether it was there. `user` is as in `retire`. */
  delete(id: Uint8Array, user: Uint8Array | null): Awaitable<boolean>;
  /** Deletes a user's rows and sessions. Returns how many rows there were. */
  erase(user: Uint8Array): Awaitable<number>;
}

/** A `Store` in the memory of this process, which ends with it: for tests, and as an example for writing your own. */
export class MemoryStore implements Store {
  begin(session: OpenSession): void;
  session(number: string): OpenSession | null;
  register(number: string, row: KeptCredential): 0 | 1 | 15;
  signIn(number: string, row: KeptCredential, signCount: number): 0 | 1 | 15;
  abandon(number: string): boolean;
  row(id: Uint8Array): KeptCredential | null;
  rows(user: Uint8Array | null): KeptCredential[];
  retire(id: Uint8Array, user: Uint8Array | null): boolean;
  retireAll(user: Uint8Array): number;
  delete(id: Uint8Array, user: Uint8Array | null): boolean;
  erase(user: Uint8Array): number;
}

/** `Server` with its sessions and credentials in a `Store` of the site's own. It throws `StoreFailed` if the store answers something other than it may. */
export class KeepingServer implements PasskeyServer {
  /** `lifetime` is how many seconds a session stays open: 300. `logger` receives each row that a list leaves out: `console.error`. */
  constructor(server: Server, store: Store, options?: { lifetime?: number; logger?: (error: unknown) => void });
  readonly origins: readonly string[];
  readonly topOrigins: readonly string[];
  registerBegin(user: Uint8Array, userName: string, options?: RegistrationOptions): Promise<{ options: PublicKeyCredentialCreationOptionsJSON; session: string }>;
  registerComplete(session: string | null, response: unknown): Promise<Registered>;
  authenticateBegin(options?: SignInOptions): Promise<{ options: PublicKeyCredentialRequestOptionsJSON; session: string }>;
  authenticateComplete(session: string | null, response: unknown): Promise<SignedIn>;
  rows(user?: Uint8Array | null): Promise<KeptCredential[]>;
  retire(id: Uint8Array, user?: Uint8Array | null): Promise<boolean>;
  retireAll(user: Uint8Array): Promise<number>;
  delete(id: Uint8Array, user?: Uint8Array | null): Promise<boolean>;
  erase(user: Uint8Array): Promise<number>;
  abandon(session: string | null): Promise<boolean>;
}

/** A response is refused. The step is the first one of section 7.1 or 7.2 of WebAuthn that the response does not pass. */
export class Refused extends Error {
  constructor(isRegistration: boolean, number: number, text: string);
  readonly isRegistration: boolean;
  /** Below 100. */
  readonly number: number;
  /** The name of the step; the same as `name` if it has none. */
  readonly step: string;
  /** G and the number for a registration, W for a sign-in. */
  readonly name: string;
  readonly code: "GARVOENG_REFUSED";
  readonly text: string;
}

/** A value is out of its limits: one of the site's own, or a response that is not in the form of JSON. */
export class BadInput extends Error {
  constructor(text: string, number?: number);
  readonly code: "GARVOENG_BAD_INPUT";
  /** The number of the answer, 100 and up; 0 if the library was not asked. */
  readonly number: number;
  readonly text: string;
}

/** Memory ran out. All of it is available again to the next call. */
export class NoMemory extends Error {
  readonly code: "GARVOENG_NO_MEMORY";
  readonly number: 127;
}

/** The row of a credential is not one that a site writes, and the visitor is not at fault. */
export class RowDamaged extends Error {
  constructor(id: Uint8Array, text: string, options?: { cause?: unknown });
  readonly code: "GARVOENG_ROW_DAMAGED";
  /** The credential's id. */
  readonly id: Uint8Array;
}

/** The row of an open session is not one that a site writes. */
export class SessionDamaged extends Error {
  constructor(session: string, text: string, options?: { cause?: unknown });
  readonly code: "GARVOENG_SESSION_DAMAGED";
  /** The session's number. */
  readonly session: string;
}

/** The program, the database or the store could not be reached, ended before it answered, or failed: the operation may or may not be done.
 *  The next call tries again. */
export class StoreFailed extends Error {
  constructor(text: string, options?: { cause?: unknown });
  readonly code: "GARVOENG_STORE_FAILED";
}

/** Whether the bytes are exactly one value in canonical CBOR (CTAP 2.1). */
export function isCanonical(value: Uint8Array): boolean;
/** Makes a credential from COSE_Key bytes (RFC 9052, section 7), which other libraries store. Throws `BadInput`. */
export function credentialFromCose(members: Omit<CredentialMembers, "algorithm" | "x" | "y"> & { coseKey: Uint8Array }): Credential;
/** The public key as COSE_Key bytes, in canonical CBOR. Throws `BadInput`. */
export function coseKeyOf(key: Pick<CredentialMembers, "algorithm" | "x" | "y">): Uint8Array;

/** Loads passkey.wasm; call it first. It comes from beside this file, or from a URL, a `Response`, bytes or a `WebAssembly.Module`. */
export function load(source?: unknown): Promise<void>;
