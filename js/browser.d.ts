// The page's side. Errors are the browser's own: `NotAllowedError` if the user declined or took too long, `InvalidStateError`
// if the authenticator has one of `excludeCredentials`, `AbortError` or the signal's reason if the call was ended,
// `NotSupportedError` if the browser has no passkeys.
import { AuthenticationResponseJSON, PublicKeyCredentialCreationOptionsJSON, PublicKeyCredentialRequestOptionsJSON, RegistrationResponseJSON } from "./web.js";

/** The options that the standard requires, and those that it allows. */
export type CreationOptions = Pick<PublicKeyCredentialCreationOptionsJSON, "rp" | "user" | "challenge" | "pubKeyCredParams"> & Partial<PublicKeyCredentialCreationOptionsJSON>;
export type RequestOptions = Pick<PublicKeyCredentialRequestOptionsJSON, "challenge"> & Partial<PublicKeyCredentialRequestOptionsJSON>;
export type Mediation = "conditional" | "optional" | "required" | "silent";

/** Whether this browser has passkeys. */
export function isSupported(): boolean;
/** Makes a passkey: takes PublicKeyCredentialCreationOptionsJSON, and resolves to RegistrationResponseJSON. Ends a call that is still
 *  waiting. With `mediation: "conditional"` the browser may make one by itself after a sign-in by password; the site then passes
 *  `conditional: true` to `registerBegin`. */
export function register(options: CreationOptions, how?: { signal?: AbortSignal; mediation?: Mediation }): Promise<RegistrationResponseJSON>;
/** Signs in: takes PublicKeyCredentialRequestOptionsJSON, and resolves to AuthenticationResponseJSON. Ends a call that is still waiting.
 *  With `mediation: "conditional"` the browser offers passkeys in the autofill of an input that has `autocomplete="username webauthn"`;
 *  check `canAutofill` first. */
export function signIn(options: RequestOptions, how?: { signal?: AbortSignal; mediation?: Mediation }): Promise<AuthenticationResponseJSON>;
/** Whether this browser offers passkeys in autofill. */
export function canAutofill(): Promise<boolean>;
/** Signs in by autofill, however long the visitor waits: `begin()` returns the site's options, and is called again every `milliseconds`,
 *  240,000, before the site's session expires. Another call ends it. */
export function autofill(begin: () => Promise<RequestOptions>, how?: { signal?: AbortSignal; milliseconds?: number }): Promise<AuthenticationResponseJSON>;

/** Passes the results of `signalUnknownCredential`, `signalAllAccepted` and `signalUserDetails` of the site's `Server` to authenticators
 *  (WebAuthn Level 3, section 5.1.10). Resolves to whether the browser has this call. */
export function signalUnknownCredential(told: { rpId: string; credentialId: string }): Promise<boolean>;
export function signalAllAccepted(told: { rpId: string; userId: string; allAcceptedCredentialIds: string[] }): Promise<boolean>;
export function signalUserDetails(told: { rpId: string; userId: string; name: string; displayName: string }): Promise<boolean>;
