// The same as `garvoeng/web`, with the module as text: nothing has to be loaded, and a bundle needs no other file.
export {
  AuthenticationResponseJSON, Awaitable, BadInput, Credential, CredentialMembers, EDDSA, ES256, Ids, KeepingServer, KeptCredential, KeptMembers, KeptSignIn, MAX_LIST, MemoryStore, NoMemory,
  OpenSession, OptionsOfBoth, PasskeyServer, PublicKeyCredentialCreationOptionsJSON,
  PublicKeyCredentialDescriptorJSON, PublicKeyCredentialRequestOptionsJSON, RS256, Refused, Registered, RegistrationOptions, RegistrationResponseJSON, RegistrationSession, Requirement, RowDamaged, Server,
  ServerOptions, SessionDamaged, SignInOptions, SignInSession, SignedIn, Store, StoreFailed, Told, Verify, WebStore, coseKeyOf, credentialFromCose, fromText, isCanonical, toText,
} from "./web.js";
