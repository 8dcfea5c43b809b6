// The package in Node.
import {
  KeptCredential, PasskeyServer, PublicKeyCredentialCreationOptionsJSON, PublicKeyCredentialRequestOptionsJSON, Registered, RegistrationOptions, ServerOptions, SignInOptions, SignedIn, WebStore,
} from "./web.js";
export {
  AuthenticationResponseJSON, Awaitable, BadInput, Credential, CredentialMembers, EDDSA, ES256, Ids, KeepingServer, KeptCredential, KeptMembers, KeptSignIn, MAX_LIST, MemoryStore, NoMemory,
  OpenSession, OptionsOfBoth, PasskeyServer, PublicKeyCredentialCreationOptionsJSON,
  PublicKeyCredentialDescriptorJSON, PublicKeyCredentialRequestOptionsJSON, RS256, Refused, Registered, RegistrationOptions, RegistrationResponseJSON, RegistrationSession, Requirement, RowDamaged, Server,
  ServerOptions, SessionDamaged, SignInOptions, SignInSession, SignedIn, Store, StoreFailed, Told, Verify, WebStore, coseKeyOf, credentialFromCose, fromText, isCanonical, toText,
} from "./web.js";

export interface StoredServerOptions extends ServerOptions {
  /** The greatest number of credentials, up to 1,000,000: 1,000,000. */
  maxCredentials?: number;
  /** Whether the file must be there: false. */
  existing?: boolean;
  /** A former value of `known`: each copy of the file that lacks that change is refused, and no file is made. */
  atLeast?: number;
  /** Whether each commit flushes twice, for disks that may leave any bytes of a write that is cut off: false. */
  wary?: boolean;
  /** What the program logs: nothing, refusals (also `true`), or acceptances and errors too. */
  log?: boolean | "refusals" | "all";
  /** Seconds until a session expires, up to 1,000,000: 300. */
  lifetime?: number;
  /** Milliseconds after which a program that does not answer is ended: 30,000. */
  timeout?: number;
  /** Receives each line that the program logs: `console.error`. */
  logger?: (line: string) => void;
}

/** The state of a site. Refusals and acceptances are counted since the program's start, refusals by step. */
export interface SiteStatus {
  readonly version: string;
  readonly credentials: number;
  readonly next_session: number;
  readonly known: number;
  readonly commits: number;
  readonly last_commit_microseconds: number;
  readonly sign_ins: number;
  readonly registrations: number;
  readonly sign_ins_refused: Readonly<Record<string, number>>;
  readonly registrations_refused: Readonly<Record<string, number>>;
  /** Lines of the log that could not be written. */
  readonly lost_log_lines: number;
}

/** A relying party over the SQLite file of the proved program passkey-site, which runs beside this process and ends with it. One process
 *  uses the file. With node:cluster this is the primary: a `StoredServer` there, made with the same parameters, answers the calls of those
 *  in the workers. If the program ends during a call, the call rejects with `StoreFailed`, and the next call starts the program again. */
export class StoredServer implements PasskeyServer {
  /** `program` and `file` are paths; the file is made if it is missing. */
  constructor(program: string, file: string, rpId: string, origins: readonly string[], options?: StoredServerOptions);
  readonly rpId: string;
  readonly rpName: string;
  readonly origins: readonly string[];
  readonly topOrigins: readonly string[];
  /** In the memory of the process that runs the program: when it starts anew, all sign-ins of `passkeys` have ended. */
  readonly webStore: WebStore;
  /** As in `Server`; with the profile `strict`, `exclude` has at most 8 credentials. `session` is a text that only this visitor may have.
   *  Without `exclude`, the account's own credentials are excluded, the first that there is room for. */
  registerBegin(user: Uint8Array, userName: string, options?: RegistrationOptions): Promise<{ options: PublicKeyCredentialCreationOptionsJSON; session: string }>;
  /** Resolves to what a RegistrationResponseJSON registers. It is in the file, with its transports. Rejects with `Refused`, `BadInput` or
   *  `StoreFailed`. */
  registerComplete(session: string | null, response: unknown): Promise<Registered>;
  /** As in `Server`, with `allow` limited like `exclude`. With `user` and without `allow`, the account's own credentials are listed; if
   *  there are too many, any of them that the browser finds may answer. */
  authenticateBegin(options?: SignInOptions): Promise<{ options: PublicKeyCredentialRequestOptionsJSON; session: string }>;
  /** Resolves to who signed in with an AuthenticationResponseJSON. Rejects like `registerComplete`. */
  authenticateComplete(session: string | null, response: unknown): Promise<SignedIn>;
  /** Retires a credential: it can't sign in any more, and its account's open registrations end. Resolves to whether it could until now.
   *  With `user`, a credential of another account is left as it is. */
  retire(id: Uint8Array, user?: Uint8Array | null): Promise<boolean>;
  /** Forgets a credential and all that is known of it; its id may be registered again. Its account's open registrations end. Resolves to
   *  whether it was there. `user` is as in `retire`. */
  delete(id: Uint8Array, user?: Uint8Array | null): Promise<boolean>;
  /** Retires an account's credentials, and ends its open registrations. Resolves to how many could sign in until now. */
  retireAll(user: Uint8Array): Promise<number>;
  /** Forgets an account's credentials at once, and ends its open registrations. Resolves to how many there were. */
  erase(user: Uint8Array): Promise<number>;
  /** Ends a session. Resolves to whether it was open. */
  abandon(session: string | null): Promise<boolean>;
  /** The credentials of a user, or all, in order of registration, with what is known of each. */
  rows(user?: Uint8Array | null): Promise<KeptCredential[]>;
  /** The state of the site, for a health check and for metrics. */
  status(): Promise<SiteStatus>;
  /** `status` in the text format of Prometheus, version 0.0.4, for a response with the content type `text/plain; version=0.0.4`. Names
   *  begin with `garvoeng_`, counters end in `_total`, and refusals have the label `step`. */
  metrics(): Promise<string>;
  /** The number for `atLeast`, which refuses copies of the file that lack the last change that this process knows of. */
  readonly known: number;
  /** Copies the file to an unused path on the program's machine: a whole file of one moment, which is on the disk once this resolves. Other
   *  calls wait meanwhile. Rejects with `BadInput` if it can't be made; then there is none. */
  backup(path: string): Promise<void>;
  /** Ends the program after it has answered the open calls, and closes its file. A later call starts it again. */
  close(): Promise<void>;
}
