// A relying party over PostgreSQL, for Node.
import {
  KeptCredential, KeptSignIn, PasskeyServer, PublicKeyCredentialCreationOptionsJSON, PublicKeyCredentialRequestOptionsJSON, Registered, RegistrationOptions, Server, SignInOptions, SignedIn, WebStore,
} from "./index.js";

/** What is used of a connection, as in `pg`. A connection without `release` is ended with `end`, if it has that. */
export interface SqlClient {
  query(text: string, values: unknown[]): Promise<{ rows: any[]; rowCount: number | null }>;
  on?(name: "error", listener: (error: Error) => void): unknown;
  removeListener?(name: "error", listener: (error: Error) => void): unknown;
  release?(isBroken?: boolean): void;
  end?(): Promise<void>;
}

/** What is used of a pool: a `Pool` of `pg`, or any object with its `connect`. */
export interface SqlPool {
  connect(): Promise<SqlClient>;
  listenerCount?(name: "error"): number;
  on?(name: "error", listener: (error: Error) => void): unknown;
}

/** Runs a statement in the transaction of a call, with `$1` and so on for the values. */
export type SqlQuery = (text: string, values?: unknown[]) => Promise<{ rows: any[]; rowCount: number | null }>;

export interface SqlServerOptions {
  /** How many seconds a session stays open, by the clock of the process: 300. */
  lifetime?: number;
  /** Receives a `RowDamaged` for each row that is left out of a list: `console.error`. */
  logger?: (error: unknown) => void;
  /** Changes the site's own rows in the transaction of the call that stores the change, and is awaited. If it throws, the call rejects and
   *  nothing is stored. If the transaction is repeated, it is called again. */
  onRegistered?: (query: SqlQuery, registered: Registered) => unknown;
  onSignedIn?: (query: SqlQuery, signedIn: SignedIn) => unknown;
  /** For `erase`, with the user handle. */
  onErased?: (query: SqlQuery, user: Uint8Array) => unknown;
}

/** A `Server` whose sessions and credentials are rows, in the tables `garvoeng_version`, `garvoeng_credential` and `garvoeng_session`,
 *  which the first call makes if they are missing. Each call is one transaction. A call that rejects, for any reason, has changed nothing,
 *  except that a commit whose answer was lost (`StoreFailed`) may or may not be done. If another transaction is in the way (a serialization
 *  failure or a deadlock), it is repeated, eight times at most. */
export class SqlServer implements PasskeyServer {
  /** The pool belongs to the host, who ends it; or a function returns a client for each call. */
  constructor(server: Server, pool: SqlPool | (() => SqlClient | Promise<SqlClient>), options?: SqlServerOptions);
  readonly origins: readonly string[];
  readonly topOrigins: readonly string[];
  /** In the table `garvoeng_session`. */
  readonly webStore: WebStore;
  /** Resolves to the result of `work(query)`, run in a transaction that is repeated if another one was in its way. */
  within<T>(work: (query: SqlQuery) => T | Promise<T>): Promise<T>;
  /** Makes the tables if they are missing; every other call does so too. Rejects with `StoreFailed`, also if they are of another
   *  version. */
  prepare(): Promise<void>;
  /** As in `Server`. `session` is a text of 32 hex digits that only this visitor may have. Without `exclude`, the account's own credentials
   *  are excluded. With `signIn`, a number from `webStore.keepSignIn`, the registration belongs to that visitor: it can be finished only
   *  with the same number, while the visitor is signed in. */
  registerBegin(user: Uint8Array, userName: string, options?: RegistrationOptions & { signIn?: string | null }): Promise<{ options: PublicKeyCredentialCreationOptionsJSON; session: string }>;
  /** Resolves to what a RegistrationResponseJSON registers, after storing it and closing the session. Rejects with `Refused`, `BadInput`,
   *  `NoMemory` or `StoreFailed`. */
  registerComplete(session: string | null, response: unknown, how?: { signIn?: string | null }): Promise<Registered>;
  /** As in `Server`. With `user` and without `allow`, the account's own credentials are listed; if there are more than 64, any of them that
   *  the browser finds may answer. */
  authenticateBegin(options?: SignInOptions): Promise<{ options: PublicKeyCredentialRequestOptionsJSON; session: string }>;
  /** Resolves to who signed in with an AuthenticationResponseJSON, after storing the counter and closing the session. Rejects like
   *  `registerComplete`, or with `RowDamaged`. */
  authenticateComplete(session: string | null, response: unknown): Promise<SignedIn>;
  /** Retires a credential: it can't sign in any more. Resolves to whether it could until now. With `user`, a credential of another account
   *  is left as it is. The open registrations of its account end. */
  retire(id: Uint8Array, user?: Uint8Array | null): Promise<boolean>;
  /** Retires an account's credentials, and ends its open registrations. Resolves to how many could sign in until now. */
  retireAll(user: Uint8Array): Promise<number>;
  /** Forgets a credential; its id may be registered again. Resolves to whether it was there. The open registrations of its account end.
   *  `user` is as in `retire`. */
  delete(id: Uint8Array, user?: Uint8Array | null): Promise<boolean>;
  /** Forgets all credentials of an account, and ends its open sessions. Resolves to how many there were. */
  erase(user: Uint8Array): Promise<number>;
  /** Ends a session. Resolves to whether it was open. */
  abandon(session: string | null): Promise<boolean>;
  /** The credentials of a user, or all, in order of the second of their registration. A damaged row is left out and logged. */
  rows(user?: Uint8Array | null): Promise<KeptCredential[]>;
}

/** A `WebStore` as rows in the tables of a `SqlServer`: either one that keeps the passkeys too (`looksUp`), or one beside another
 *  server. */
export class SqlWebStore implements WebStore {
  constructor(server: SqlServer, options?: { looksUp?: boolean });
  readonly looksUp: boolean;
  secret(): Promise<Uint8Array>;
  keepSignIn(user: Uint8Array, credential?: Uint8Array | null, lifetime?: number): Promise<string>;
  signedIn(number: string): Promise<KeptSignIn | null>;
  abandon(number: string): Promise<boolean>;
  names(user: Uint8Array): Promise<Map<string, string>>;
  rename(user: Uint8Array, credential: Uint8Array, name: string): Promise<void>;
  erase(user: Uint8Array): Promise<number>;
}
