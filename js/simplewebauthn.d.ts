// The server's calls of SimpleWebAuthn 13, over the proved steps: docs/COMING.md has what differs.
import type {
  AuthenticationResponseJSON, Awaitable, PublicKeyCredentialCreationOptionsJSON, PublicKeyCredentialRequestOptionsJSON, RegistrationResponseJSON,
} from "./index.js";

export type { AuthenticationResponseJSON, PublicKeyCredentialCreationOptionsJSON, PublicKeyCredentialRequestOptionsJSON, RegistrationResponseJSON };

type UserVerificationRequirement = "required" | "preferred" | "discouraged";

/** A stored passkey. */
export interface WebAuthnCredential {
  /** Base64url. */
  id: string;
  /** COSE_Key in canonical CBOR. */
  publicKey: Uint8Array;
  counter: number;
  transports?: readonly string[];
}

export interface GenerateRegistrationOptionsOpts {
  rpName: string;
  rpID: string;
  userName: string;
  /** 1 to 64 bytes; random ones if left out. */
  userID?: Uint8Array;
  /** 32 random bytes, or a text of that many bytes in UTF-8; new ones if left out. */
  challenge?: string | Uint8Array;
  userDisplayName?: string;
  /** Milliseconds: 60,000. */
  timeout?: number;
  attestationType?: "none" | "direct" | "enterprise";
  excludeCredentials?: readonly { id: string; transports?: readonly string[] }[];
  authenticatorSelection?: { authenticatorAttachment?: "platform" | "cross-platform"; residentKey?: UserVerificationRequirement; userVerification?: UserVerificationRequirement };
  extensions?: object;
  /** Of these, ES256, EdDSA and RS256 are offered. */
  supportedAlgorithmIDs?: readonly number[];
  preferredAuthenticatorType?: "securityKey" | "localDevice" | "remoteDevice";
}

export interface GenerateAuthenticationOptionsOpts {
  rpID: string;
  allowCredentials?: readonly { id: string; transports?: readonly string[] }[];
  challenge?: string | Uint8Array;
  timeout?: number;
  userVerification?: UserVerificationRequirement;
  extensions?: object;
}

interface ResponseOpts<Response> {
  response: Response;
  /** The challenge of the options; or a function that returns whether the response's challenge is one of yours. Accept each once. */
  expectedChallenge: string | ((challenge: string) => Awaitable<boolean>);
  expectedOrigin: string | readonly string[];
  expectedRPID: string | readonly string[];
  expectedType?: string | readonly string[];
  /** True if left out. */
  requireUserVerification?: boolean;
}

export interface VerifyRegistrationResponseOpts extends ResponseOpts<RegistrationResponseJSON> {
  /** True if left out; false for a registration that the browser made by itself. */
  requireUserPresence?: boolean;
  supportedAlgorithmIDs?: readonly number[];
  /** What the options asked for. Unless it is `none`, the attestation statement is verified: `none` and packed self attestation are
   *  accepted. */
  attestationType?: "none" | "direct" | "enterprise";
  attestationSafetyNetEnforceCTSCheck?: boolean;
}

interface ResponseInfo {
  userVerified: boolean;
  credentialDeviceType: "singleDevice" | "multiDevice";
  credentialBackedUp: boolean;
  origin: string;
  rpID: string;
}

export type VerifiedRegistrationResponse =
  | { verified: false; registrationInfo?: never }
  | { verified: true; registrationInfo: ResponseInfo & {
      /** The effective format: `none` if no attestation was asked for. */
      fmt: "none" | "packed";
      aaguid: string;
      credential: WebAuthnCredential;
      credentialType: "public-key";
      attestationObject: Uint8Array;
    } };

export interface VerifyAuthenticationResponseOpts extends ResponseOpts<AuthenticationResponseJSON> {
  /** The stored passkey with the response's id. With `webauthnUserID`, its user handle in base64url, the response must have the same
   *  one. */
  credential: WebAuthnCredential & { webauthnUserID?: string };
  advancedFIDOConfig?: { userVerification?: UserVerificationRequirement };
}

export type VerifiedAuthenticationResponse =
  | { verified: false; authenticationInfo: { newCounter: number; credentialID: string } }
  | { verified: true; authenticationInfo: ResponseInfo & { newCounter: number; credentialID: string } };

export const supportedCOSEAlgorithmIdentifiers: readonly number[];
export function generateRegistrationOptions(options: GenerateRegistrationOptionsOpts): Promise<PublicKeyCredentialCreationOptionsJSON>;
/** Throws `Refused` with the first step of section 7.1 that the response does not pass, and `BadInput`. The site itself checks whether the
 *  id is registered already. */
export function verifyRegistrationResponse(options: VerifyRegistrationResponseOpts): Promise<VerifiedRegistrationResponse>;
export function generateAuthenticationOptions(options: GenerateAuthenticationOptionsOpts): Promise<PublicKeyCredentialRequestOptionsJSON>;
/** Throws `Refused` with the first step of section 7.2 that the response does not pass, and `BadInput`. Store `newCounter`. */
export function verifyAuthenticationResponse(options: VerifyAuthenticationResponseOpts): Promise<VerifiedAuthenticationResponse>;
