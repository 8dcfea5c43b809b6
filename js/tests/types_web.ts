// The same where there is no Node.
import { RequestOptions, autofill, canAutofill, isSupported, register, signIn, signalAllAccepted, signalUnknownCredential } from "garvoeng/browser";
import * as inline from "garvoeng/inline";
import { PublicKeyCredentialCreationOptionsJSON, PublicKeyCredentialRequestOptionsJSON, Server, load } from "garvoeng/web";

export async function begins(): Promise<[PublicKeyCredentialRequestOptionsJSON, PublicKeyCredentialRequestOptionsJSON]> {
  await load(new URL("https://example.com/passkey.wasm"));
  const [one, two] = [Server, inline.Server].map((kind) => new kind("example.com", ["https://example.com"]));
  return [one.authenticateBegin().options, two.authenticateBegin().options];
}

export async function visits(creation: PublicKeyCredentialCreationOptionsJSON, request: PublicKeyCredentialRequestOptionsJSON): Promise<string[]> {
  const made = await register(creation, { signal: new AbortController().signal }), least: RequestOptions = { challenge: request.challenge };
  if (!isSupported()) return [(await register(creation, { mediation: "conditional" })).response.attestationObject, (await autofill(async () => least, { milliseconds: 9 })).id];
  const signed = await signIn(await (await fetch("/passkeys/sign-in/begin")).json(), (await canAutofill()) ? { mediation: "conditional" } : {});
  const told = (await signalUnknownCredential({ rpId: "example.com", credentialId: signed.id })) || (await signalAllAccepted(new Server("example.com", []).signalAllAccepted(new Uint8Array(1), [])));
  return [made.id, signed.response.signature, String(told)];
}

// @ts-expect-error: options have a challenge
register({});
// @ts-expect-error: nothing is to be loaded
inline.load();
