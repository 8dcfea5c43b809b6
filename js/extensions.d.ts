// Three extensions (WebAuthn Level 3, sections 10.1.3 to 10.1.5): what a begin takes as `extensions`, and what the client answered. Bytes
// that are not a Uint8Array, and results that are not in their form, throw `BadInput`.
import { AuthenticationResponseJSON, RegistrationResponseJSON } from "./index.js";

/** Asks whether the new credential is discoverable. */
export function credProps(): { credProps: true };
/** Asks for a pseudo-random function, and for its results for one or two inputs. In a sign-in, `byCredential` has the inputs of listed
 *  credentials by their ids. */
export function prf(first?: Uint8Array, second?: Uint8Array, how?: { byCredential?: Map<Uint8Array, [Uint8Array] | [Uint8Array, Uint8Array]> }): { prf: object };
/** Asks for a credential that can keep a large blob; if it is required, none is made without. */
export function largeBlobSupport(required?: boolean): { largeBlob: { support: "required" | "preferred" } };
/** Asks for the credential's blob in a sign-in. */
export function largeBlobRead(): { largeBlob: { read: true } };
/** Stores a blob with the credential in a sign-in that lists this credential alone. */
export function largeBlobWrite(blob: Uint8Array): { largeBlob: { write: string } };

/** What the client answered; null where it said nothing. Nothing signs it: a visitor can send other results. */
export interface ExtensionResults {
  /** Whether the credential is discoverable (`credProps.rk`). */
  discoverable: boolean | null;
  /** Whether the credential has a pseudo-random function. */
  prfEnabled: boolean | null;
  /** Its results, 32 bytes each: secrets, which a page need not send. */
  prfFirst: Uint8Array | null;
  prfSecond: Uint8Array | null;
  /** Whether the credential can keep a large blob. */
  largeBlobSupported: boolean | null;
  /** The blob that was read. */
  largeBlob: Uint8Array | null;
  /** Whether a blob was written. */
  largeBlobWritten: boolean | null;
}
/** The results in a response. Other extensions are ignored. */
export function resultsOf(response: RegistrationResponseJSON | AuthenticationResponseJSON): ExtensionResults;
