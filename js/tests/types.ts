// What hosts write, as TypeScript sees it: checked by tsc --strict, and not run.
import {
  AuthenticationResponseJSON, BadInput, Credential, NoMemory, PublicKeyCredentialCreationOptionsJSON, PublicKeyCredentialRequestOptionsJSON, Refused, RegistrationResponseJSON, Server,
  SignInSession, fromText, toText,
} from "garvoeng";
import { ExtensionResults, credProps, prf, resultsOf } from "garvoeng/extensions";

const table = new Map<string, Credential>();
const server: Server = new Server("example.com", ["https://example.com"], { rpName: "A site", verify: async () => true });

export async function registers(user: Uint8Array, page: (options: object) => Promise<unknown>): Promise<string> {
  const { options, session } = server.registerBegin(user, "name", { residentKey: "preferred", exclude: [...table.values()] });
  const { credential, format } = await server.registerComplete(session, await page(options), { isRegistered: (id) => table.has(toText(id)) });
  table.set(toText(credential.id), credential);
  return format;
}

export async function signsIn(kept: string, response: unknown): Promise<Uint8Array | null> {
  try {
    const said = await server.authenticateComplete(SignInSession.fromJSON(kept), response, { credential: async (id) => table.get(toText(id)) });
    return said.backedUp ? said.credential.user : fromText("AA", "it");
  } catch (error) {
    if (error instanceof Refused) return error.number === 15 ? null : Promise.reject(new Error(error.step));
    if (error instanceof BadInput || error instanceof NoMemory) return null;
    throw error;
  }
}

const asked: PublicKeyCredentialRequestOptionsJSON = server.authenticateBegin({ userVerification: true }).options;
const begun: PublicKeyCredentialCreationOptionsJSON = server.registerBegin(new Uint8Array(1), "name").options;
export const parts = (made: RegistrationResponseJSON, signed: AuthenticationResponseJSON): (string | undefined)[] =>
  [asked.challenge, begun.excludeCredentials[0]?.id, made.response.transports?.[0], signed.response.userHandle ?? undefined];
// @ts-expect-error: a challenge is text
asked.challenge = new Uint8Array(32);
// @ts-expect-error: user verification is true, false or one of three texts
server.authenticateBegin({ userVerification: "yes" });
// @ts-expect-error: a user handle is bytes
server.registerBegin("account 7", "name");
// @ts-expect-error: a session of a registration is none of a sign-in
server.authenticateComplete(server.registerBegin(new Uint8Array(1), "name").session, {}, { credential: () => null });

export function secretOf(response: AuthenticationResponseJSON): Uint8Array | null {
  const results: ExtensionResults = resultsOf(response), extensions: { prf: object; credProps: boolean } = { ...credProps(), ...prf(fromText("AA")) };
  return extensions.credProps ? results.prfFirst : null;
}
