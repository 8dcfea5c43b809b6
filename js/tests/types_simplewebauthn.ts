// The types of `garvoeng/compat/simplewebauthn`, as a site of SimpleWebAuthn's has its calls.
import {
  generateAuthenticationOptions, generateRegistrationOptions, verifyAuthenticationResponse, verifyRegistrationResponse,
  type AuthenticationResponseJSON, type RegistrationResponseJSON, type WebAuthnCredential,
} from "garvoeng/compat/simplewebauthn";

async function register(response: RegistrationResponseJSON): Promise<WebAuthnCredential | null> {
  const options = await generateRegistrationOptions({ rpName: "Site", rpID: "example.com", userName: "anna", attestationType: "none", authenticatorSelection: { residentKey: "preferred" } });
  const { verified, registrationInfo } = await verifyRegistrationResponse({ response, expectedChallenge: options.challenge, expectedOrigin: "https://example.com", expectedRPID: ["example.com"] });
  if (!verified) return null;
  const { credential, credentialDeviceType, credentialBackedUp } = registrationInfo;
  return credentialDeviceType === "singleDevice" || credentialBackedUp ? credential : null;
}

async function signIn(response: AuthenticationResponseJSON, credential: WebAuthnCredential): Promise<number> {
  const { challenge } = await generateAuthenticationOptions({ rpID: "example.com", allowCredentials: [{ id: credential.id, transports: credential.transports }] });
  const told = await verifyAuthenticationResponse({ response, expectedChallenge: async (one) => one === challenge, expectedOrigin: "https://example.com", expectedRPID: "example.com", credential });
  // @ts-expect-error the option is expectedChallenge
  await verifyAuthenticationResponse({ response, challenge, expectedOrigin: "https://example.com", expectedRPID: "example.com", credential });
  return told.verified ? told.authenticationInfo.newCounter : credential.counter;
}

export { register, signIn };
