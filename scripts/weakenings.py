"""The weakenings that ./dev weaken tries: a name; what it asks less; the edits, of which the first is the definition's, and the others
change with it the proofs that show what it asks, so that what is refused is what rests on it."""
import weakenings_of_stores
from weakened_files import *


# that Level 3 and the open profile ask the same in a step is shown of what the step asks
SAME = "(λ p. p, λ p. p)"
SAME_IN_SESSION = f"λ e is. (λ one. tt, λ other. {SAME})"
OF_DATA = "(λ p a of. p a ((level3 a x.response.auth_data).1 of), λ p a of. p a ((level3 a x.response.auth_data).0 of))"
OF_SESSION = "(λ p e is a of. p e is a ((level3 a x.response.auth_data).1 of), λ p e is a of. p e is a ((level3 a x.response.auth_data).0 of))"
OF_OBJECT = "(to_open x.response _, from_open x.response _)"
OF_SESSIONS_OBJECT = "(λ p e is. to_open x.response _ (p e is), λ p e is. from_open x.response _ (p e is))"
OF_PRESENCE = """λ e is. (
  λ conditional f also o a c h. inr (refl, flag valid x e is (λ (k : ExpectedRegistration). k.conditional) true conditional f also),
  λ usual. (
    λ p f also o a c h. elim (p f also o a c (closed x.response o a c h)) [
      | inl up ↦ inl up
      | inr free ↦
          let not_so = flag valid x e is (λ (k : ExpectedRegistration). k.conditional) false usual f also in
          let so = free.1 in absurd cc
    ],
    λ p f also o a c h. elim (p f also o a c (opened x.response o a c h)) [
      | inl up ↦ inl up
      | inr free ↦ absurd (other free.0)
    ],
  ),
)"""
OF_STATEMENT = """λ e is. (
  λ unasked f also o a c h. inl (counted_none Level3 f.attestation o (refl, none_of valid x e is unasked f also)),
  λ asked. (
    λ p f also o a c h. rw (sym (asked_of valid x e is asked f also o)) (p f also o a c (closed x.response o a c h)),
    λ p f also o a c h. rw (asked_of valid x e is asked f also o) (p f also o a c (opened x.response o a c h)),
  ),
)"""


def step(name, old, shown, same=None):
    """A step of a sign-in that everything passes."""
    return [
        (SIGN_IN, f"PassesSignInStep valid x step.{name} = {old}\n", f"PassesSignInStep valid x step.{name} = Unit {{0}}\n"),
        (SIGNING_IN, f"passed h step.{name} = {shown}\n", f"passed h step.{name} = tt\n"),
    ] + ([] if same is None else [(DIFFERING, f"sign_ins_differ valid x sign_in.{name} = {same}\n", f"sign_ins_differ valid x sign_in.{name} = {SAME}\n")])


def registering(name, old, shown, same=None, new=SAME):
    """A step of a registration that everything passes."""
    return [
        (REGISTRATION, f"PassesRegistrationStep valid x step.{name} = {old}\n", f"PassesRegistrationStep valid x step.{name} = Unit {{0}}\n"),
        (REGISTERING, f"passed h step.{name} = {shown}\n", f"passed h step.{name} = tt\n"),
    ] + ([] if same is None else [(DIFFERING, f"registrations_differ valid x registration.{name} = {same}\n", f"registrations_differ valid x registration.{name} = {new}\n")])


WEAKENINGS = [
    ("session", "a sign-in needs no open session", step("SessionNotOpen", "IsSome x.session", "rw h.is_open refl")),
    ("allow_list", "any credential answers a session", step("CredentialNotAllowed",
        "ForSome x.session (λ e. (e.allow ≡ []) ⊎ Contains e.allow x.response.credential)", "of_some _ x.session e h.is_open h.allowed")),
    ("retired_signs_in", "a retired credential signs in", [
        (SIGN_IN, "(λ c. (c.id ≡ x.response.credential) × (c.retired ≡ false))", "(λ c. c.id ≡ x.response.credential)"),
        (SIGNING_IN, "of_some _ x.credential c h.registered (h.same_id, h.not_retired)", "of_some _ x.credential c h.registered h.same_id")]),
    ("user", "any user's credential answers a session", step("OtherUser",
        "ForSome x.session (λ e. ForSome x.credential (λ c. AreUser e.user x.response.user c.user))",
        "of_some _ x.session e h.is_open (of_some _ x.credential c h.registered h.user)")),
    ("readable", "client data need not be readable", step("UnreadableClientData", "IsSome (seen_of x.response.client_data)", "h.says.0")),
    ("type", "client data of any type", step("WrongType", "ForSome (seen_of x.response.client_data) (HasType Get)", "h.says.1.0")),
    ("challenge", "client data with any challenge", step("WrongChallenge",
        "ForSome x.session (λ e. ForSome (seen_of x.response.client_data) (HasChallenge e.challenge))", "of_some _ x.session e h.is_open h.says.1.1.0")),
    ("origin", "client data of any origin", step("WrongOrigin", "ForSome (seen_of x.response.client_data) (HasOrigin x.rp)", "h.says.1.1.1.0")),
    ("attested", "an attestation's data sign in (AT)", [
        (SIGN_IN, "AuthOf x.rp.profile a x.response.auth_data × (is_set a.flags AT ≡ false)\n", "AuthOf x.rp.profile a x.response.auth_data × Unit {0}\n"),
        (SIGNING_IN, "passed h step.BadAuthenticatorData = (a, h.spelled, h.bare)\n", "passed h step.BadAuthenticatorData = (a, h.spelled, tt)\n")]),
    ("rp_id", "any rp id's hash", step("WrongRelyingParty", DATA + "IsFor x.rp a", "all _ h.spelled h.party", OF_DATA)),
    ("present", "the user need not be present (UP)", step("UserNotPresent", DATA + "IsPresent a", "all _ h.spelled h.present", OF_DATA)),
    ("verified", "the user need not be verified (UV)", step("UserNotVerified",
        "ForSome x.session (λ e. " + DATA + "IsVerifiedAs e.uv a)", "of_some _ x.session e h.is_open (all _ h.spelled h.verified)", OF_SESSION)),
    ("signature", "any signature", step("BadSignature",
        "ForSome x.credential (λ c. valid c.key (x.response.auth_data ++ sha256 x.response.client_data) x.response.signature)",
        "of_some _ x.credential c h.registered h.signature")),
    ("other_bytes", "a signature of the authenticator data alone", [
        (SIGN_IN, "valid c.key (x.response.auth_data ++ sha256 x.response.client_data) x.response.signature", "valid c.key x.response.auth_data x.response.signature")]),
    ("counter", "the counter that came may be the stored one", [
        (SIGN_IN, "⊎ (stored < received)\n", "⊎ (stored ≤ received)\n"),
        (SIGN_IN, "use Rattle.std.specs.Prelude.{◌≡◌, ◌<◌,", "use Rattle.std.specs.Prelude.{◌≡◌, ◌<◌, ◌≤◌,")]),
    ("registration_type", "client data of any type register", registering("WrongType", "ForSome (seen_of x.response.client_data) (HasType Create)", "h.says.1.0")),
    ("registration_challenge", "client data with any challenge register", registering("WrongChallenge",
        "ForSome x.session (λ e. ForSome (seen_of x.response.client_data) (HasChallenge e.challenge))", "of_some _ x.session e h.is_open h.says.1.1.0")),
    ("registration_origin", "client data of any origin register", registering("WrongOrigin",
        "ForSome (seen_of x.response.client_data) (HasOrigin x.rp)", "h.says.1.1.1.0")),
    ("registration_rp_id", "any rp id's hash registers", registering("WrongRelyingParty", "Attested x.rp.profile x.response (λ o a c. IsFor x.rp a)", "all _ h.attests h.party", OF_OBJECT)),
    ("registration_present", "the user need not be present (UP) to register", registering("UserNotPresent",
        "ForSome x.session\n    (λ e. Attested x.rp.profile x.response (λ o a c. IsPresent a ⊎ NeedsNoPresence x.rp.profile e))",
        "of_some _ x.session e h.is_open (all _ h.attests (inl h.present))", OF_PRESENCE, SAME_IN_SESSION)),
    ("registration_verified", "the user need not be verified (UV) to register", registering("UserNotVerified",
        "ForSome x.session (λ e. Attested x.rp.profile x.response (λ o a c. IsVerifiedAs e.uv a))", "of_some _ x.session e h.is_open (all _ h.attests h.verified)", OF_SESSIONS_OBJECT)),
    ("algorithm", "a key of any algorithm is registered", registering("AlgorithmNotOffered",
        "ForSome x.session (λ e. Attested x.rp.profile x.response (λ o a c. Contains e.algorithms (alg_of c.key)))",
        "of_some _ x.session e h.is_open (all _ h.attests h.offered)", OF_SESSIONS_OBJECT)),
    ("statement", "any attestation statement", registering("BadStatement",
        "ForSome x.session\n    (λ e. Attested x.rp.profile x.response (λ o a c. IsStated valid (counted x.rp.profile e.attestation o) c.key (hash_in x.response)))",
        "of_some _ x.session e h.is_open (all _ h.attests h.statement)", OF_STATEMENT, SAME_IN_SESSION)),
    ("retired_registers", "an id that is registered registers again", [
        (REGISTRATION, "= Attested x.rp.profile x.response (λ o a c. x.is_registered c.id ≡ false)\n", "= Unit {0}\n"),
        (REGISTERING, "passed h step.CredentialRegistered = all _ h.attests h.not_registered\n", "passed h step.CredentialRegistered = tt\n"),
        (DIFFERING, f"registrations_differ valid x registration.CredentialRegistered = {OF_OBJECT}\n", f"registrations_differ valid x registration.CredentialRegistered = {SAME}\n")]),
    ("session_open", "an accepted sign-in leaves its session open", [
        (SITE, "s.rows; sessions = closed n s.sessions })\n\n-- ---- registration", "s.rows })\n\n-- ---- registration")]),
    ("registration_session_open", "an accepted registration leaves its session open", [
        (SITE, "registered e a c ∷ []; sessions = closed n s.sessions })\n", "registered e a c ∷ [] })\n")]),
    ("counter_stored", "the counter that came is not stored", [
        ("site_state/specs/Table.antt", "signed_in sign_count eligible row = record row { sign_count = sign_count; eligible", "signed_in sign_count eligible row = record row { eligible"),
        ("site/proofs/Goings.antt", "sign_count = not_lower x.sign_count a.sign_count (passes.1.1.1.1.1.1.1.1.1.1.1.1.1.1.1.1.0 x there a is);", "sign_count = omega arith;")]),
    ("retired", "to retire a credential changes nothing", [
        ("site_state/specs/Table.antt", "retired row = record row { retired = true }\n", "retired row = row\n"),
        ("site/proofs/Goings.antt", "eligible = λ known is. is; retired = λ is. refl }\n", "eligible = λ known is. is; retired = λ is. is }\n")]),
    ("saved_number", "session numbers begin again at a restart", [
        (SITE, "saved_of s = record { rp_id = s.rp.rp_id; next = s.sessions.next; rows", "saved_of s = record { rp_id = s.rp.rp_id; next = 1; rows")]),
    ("saved_rows", "no credential is saved", [
        (SITE, "next = s.sessions.next; rows = s.rows }\n", "next = s.sessions.next; rows = [] }\n")]),
    ("loaded", "a site loads any table", [
        ("agreement/specs/World.antt", "  pub saved : TableOf (version_of s.rows) (saved_of s) bytes\n", "  pub older : site.SiteState\n  pub saved : TableOf (version_of older.rows) (saved_of older) bytes\n")]),
    ("reloaded", "an authenticator loads what any saved", [
        ("authenticator/specs/Saved.antt", "  pub saved : SavedOf (forgotten old) bytes\n", "  pub older : AuthenticatorState\n  pub saved : SavedOf (forgotten older) bytes\n")]),
    ("reloaded_counters", "counters are not saved", [
        ("authenticator/specs/Saved.antt", "(pair (uint 7) (uint c.sign_count) no_pairs)", "(pair (uint 7) (uint 0) no_pairs)")]),
    ("reloaded_keys", "over a restart the keys that were made are no longer known", [
        (WORLD, "after_restart h state = record h { state = state }\n", "after_restart h state = record h { state = state; made = [] }\n"),
        (LEDGER, "made = All-weaker (IsMadeIn public k past) (IsMadeIn public k (past ++ m ∷ [])) (λ key. still_made public k past m key) h.made x.made;\n"
            "    stored = subst", "made = All-nil (IsMadeIn public k (past ++ m ∷ []));\n    stored = subst")]),
    ("numbers", "the number of a session is given again", [
        ("site_state/specs/Sessions.antt", "(expected_of s.next o); next = s.next + 1 }\n", "(expected_of s.next o); next = s.next }\n")]),
    ("numbered", "a challenge does not begin with its session's number", [
        ("site_state/specs/Sessions.antt", "challenge_of n words = to_be_bytes w64 n ++ words\n", "challenge_of n words = words\n")]),
    ("present_signed", "UP is signed without presence", [
        (ORDERS, "((not (is_false flags.up) && not consent.present) || (is_true flags.uv && not consent.verified), 0x27)", "(is_true flags.uv && not consent.verified, 0x27)")]),
    ("verified_signed", "UV is signed without verification", [
        (ORDERS, "((not (is_false flags.up) && not consent.present) || (is_true flags.uv && not consent.verified), 0x27)", "(not (is_false flags.up) && not consent.present, 0x27)")]),
    ("up_always", "UP is signed though it was not asked for", [
        (STEPS, "flags = up_bit asked.up + uv_bit asked.uv;", "flags = 0x01 + uv_bit asked.uv;")]),
    ("signed_counter", "an assertion's counter is the stored one", [
        (STEPS, "sign_count = c.sign_count + 1;\n  attested = None;", "sign_count = c.sign_count;\n  attested = None;")]),
    ("kept_counter", "the counter that is signed is not kept", [
        (STEPS, "with_sign_count id (credential.sign_count + 1) old.credentials; remembered", "old.credentials; remembered")]),
    ("entry_bytes", "an entry has the authenticator data alone", [
        (STEPS, "key = key_of public credential; message = shown.auth_data ++ asked.client_data_hash;", "key = key_of public credential; message = shown.auth_data;")]),
    ("entry_key", "an entry is under any key", [
        (STEPS, "out.signed ≡ record { key = key_of public credential; message", "out.signed ≡ record { key = public credential.alg []; message")]),
    ("entry_consent", "an entry's consent is a constant", [
        (STEPS, "purpose = assertion; consent = asked.consent }", "purpose = assertion; consent = " + GIVEN + " }"),
        (SOUNDNESS, "purpose = assertion; consent = asked.consent } in", "purpose = assertion; consent = " + GIVEN + " } in"),
        (SOUNDNESS, "present = λ h. f.present (up_set asked.up asked.uv h);", "present = λ h. refl;"),
        (SOUNDNESS, "verified = λ h. f.verified (uv_set asked.up asked.uv h);", "verified = λ h. refl;")]),
    ("asked_consent", "a getAssertion's consent is remembered as a constant", [
        (STEPS, "uv = is_true (assertion_flags q.options).uv;\n  consent = consent;", "uv = is_true (assertion_flags q.options).uv;\n  consent = " + GIVEN + ";"),
        (SOUNDNESS, "record { client_data_hash = l; present = g.0; verified = g.1 }", "record { client_data_hash = l; present = λ h. refl; verified = λ h. refl }")]),
    ("attested_consent", "an attestation's consent is a constant", [
        (STEPS, "purpose = attestation; consent = consent }", "purpose = attestation; consent = " + GIVEN + " }"),
        (SOUNDNESS, "purpose = attestation; consent = consent }", "purpose = attestation; consent = " + GIVEN + " }", 3)]),
    ("next_other_channel", "a getNextAssertion goes on with another channel's", [
        (ORDERS, "remembered_on channel (Some r) = if r.asked.channel == channel then Some r else None\n", "remembered_on channel (Some r) = Some r\n"),
        (SOUNDNESS, "on_channel cs channel (Some r) h = either (r.asked.channel == channel) where\n  either : (b : Bool) → IfSome (if b then Some r else None) (SoundRemembered cs)\n"
            "  either true = h\n  either false = tt\n", "on_channel cs channel (Some r) h = h\n")]),
    ("remembers", "a getInfo leaves a getAssertion remembered", [
        (STEPS, "info_of old.aaguid old.uv)) out.reply\n  pub state : out.state ≡ forgotten old\n", "info_of old.aaguid old.uv)) out.reply\n  pub state : out.state ≡ old\n"),
        (SOUNDNESS, "get_info out s w is h = forgets public old out s h.state h.signed h.made\n",
            "get_info out s w is h =\n    nothing_signed public old out (subst SoundState (sym h.state) s)\n"
            "    (subst (λ (a : AuthenticatorState). Keeps old.credentials a.credentials) (sym h.state) (keeps_same old.credentials)) h.signed h.made\n")]),
    ("next_hash", "a getNextAssertion may sign another hash", [
        (STEPS, "remembering asked (id ∷ ids) = Some (record { asked = asked;", "remembering asked (id ∷ ids) = Some (record { asked = record asked { client_data_hash = [] };")]),
    ("made", "no key is made", [
        (STEPS, "  pub made : out.made ≡ public alg words.secret ∷ []\n", "  pub made : out.made ≡ []\n"),
        (SOUNDNESS,
         "out.made (key ∷ []) is.made (All-cons (IsStored public out.state.credentials) key [] stored (All-nil (IsStored public out.state.credentials)));",
         "out.made [] is.made (All-nil (IsStored public out.state.credentials));")]),
    ("not_recorded", "a call's signings are not kept", [
        ("agreement/specs/World.antt", "signed = h.signed ++ out.signed; made", "signed = h.signed; made")]),
    # what would empty the laws
    ("start_never", "no world is a start", [
        (WORLD, "pub record IsStart (w : World) : Type 0 where\n", "pub record IsStart (w : World) : Type 0 where\n  pub never : ⊥\n")]),
    ("decided_never", "no request is ever decided", [
        (HONEST, "  pub asks : Asks call c out\n", "  pub never : ⊥\n  pub asks : Asks call c out\n")]),
    ("honest_never", "no run is honest", [
        (HONEST, "  pub idle : IsIdleOn x.registering.channel x.registering.before\n", "  pub never : ⊥\n  pub idle : IsIdleOn x.registering.channel x.registering.before\n")]),
    ("ideal_never", "signatures are always forged", [
        (AGREEMENT, "→ WasMade m.old row.key → WasSigned m.old row.key (message_of r)\n", "→ WasMade m.old row.key → ⊥\n"),
        (ACCEPTED, "(ideal i n r row acc.tries (signature_valid m l i n r row acc) made)\n", "(absurd (ideal i n r row acc.tries (signature_valid m l i n r row acc) made))\n")]),
    ("no_restarts", "no site restarts", [
        (WORLD, "pub record Loads (s t : site.SiteState) : Type 0 where\n", "pub record Loads (s t : site.SiteState) : Type 0 where\n  pub never : ⊥\n")]),
    ("no_reloads", "no authenticator loads what it saved", [
        (WORLD, "Restarted (old.holder k).state state × ChangesHolder old new k (after_restart (old.holder k) state)\n",
            "Restarted (old.holder k).state state × ChangesHolder old new k (after_restart (old.holder k) state) × ⊥\n")]),
    ("no_reopens", "no site is opened again", [
        (WORLD, "pub record IsReopened (s t : site.SiteState) : Type 0 where\n", "pub record IsReopened (s t : site.SiteState) : Type 0 where\n  pub never : ⊥\n")]),
    ("reopens_alike", "a site is opened again with the same pages and profile alone", [
        (WORLD, "pub record IsReopened (s t : site.SiteState) : Type 0 where\n", "pub record IsReopened (s t : site.SiteState) : Type 0 where\n  pub alike : t.rp ≡ s.rp\n")]),
    ("reopens_elsewhere", "a site is opened again for another rp id", [
        (WORLD, "pub record IsReopened (s t : site.SiteState) : Type 0 where\n  pub rp_id : t.rp.rp_id ≡ s.rp.rp_id\n", "pub record IsReopened (s t : site.SiteState) : Type 0 where\n")]),
    ("reopens_without_rows", "a site that is opened again may have other credentials", [
        (WORLD, "  pub rows : t.rows ≡ s.rows\n  pub sessions : t.sessions ≡ record s.sessions", "  pub sessions : t.sessions ≡ record s.sessions")]),
    ("reopens_with_sessions", "a site that is opened again may have other sessions", [
        (WORLD, "  pub rows : t.rows ≡ s.rows\n  pub sessions : t.sessions ≡ record s.sessions { max_open = t.sessions.max_open }\n", "  pub rows : t.rows ≡ s.rows\n")]),
    ("loads_alike", "a site restarts with the same pages and profile alone", [
        (WORLD, "  pub rp_id : t.rp.rp_id ≡ s.rp.rp_id\n  pub none_open", "  pub rp_id : t.rp ≡ s.rp\n  pub none_open")]),
    ("no_expires", "no session expires", [
        (WORLD, "pub record EndsSessions (s t : site.SiteState) : Type 0 where\n", "pub record EndsSessions (s t : site.SiteState) : Type 0 where\n  pub never : ⊥\n")]),
    ("no_retires", "no credential is retired", [
        (WORLD, "SiteActs valid s (Retires id) t = t ≡ after_retire s id\n", "SiteActs valid s (Retires id) t = (t ≡ after_retire s id) × ⊥\n"),
        (SITES, "stays s t (Retires id) fresh acts =\n      whole s t (Retires id) (subst (Whole s) (sym acts) (record { keeps = b.sites.retires s id fresh; bytes = λ old. old }))\n", "stays s t (Retires id) fresh acts = absurd acts.1\n"),
        (SITES, "absent s t (Retires k) acts id none apart = ap (λ (z : SiteState). row_of id z.rows) acts ∙ none_with id k retired s.rows (λ row. refl) none\n", "absent s t (Retires k) acts id none apart = absurd acts.1\n"),
        (BEGAN, "was_open s t (Retires id) n x acts h = inl (subst (λ (z : SiteState). finite.get z.sessions.expected n ≡ Some x) acts h)\n", "was_open s t (Retires id) n x acts h = absurd acts.1\n"),
        (RETIRED, "effect.2.now ∙ effect.1 in\n        record {\n          row = retired row;", "effect.2.now ∙ effect.1.0 in\n        record {\n          row = retired row;")]),
    ("deleted", "to delete a credential changes nothing", [
        (WORLD, "after_delete s id = record s { rows = filter (λ row. not (bytes_eq id row.id)) s.rows }\n", "after_delete s id = s\n"),
        (SITES, "(others_left id row.id s.rows (λ mine. apart (ap Deletes (sym mine ∙ same))) ∙ ap (λ (j : List ℕ). row_of j s.rows) same ∙ found);", "(ap (λ (j : List ℕ). row_of j s.rows) same ∙ found);"),
        (SITES, "acts ∙ none_without id k s.rows none\n", "acts ∙ none\n")]),
    ("no_deletes", "no credential is deleted", [
        (WORLD, "SiteActs valid s (Deletes id) t = t ≡ after_delete s id\n", "SiteActs valid s (Deletes id) t = (t ≡ after_delete s id) × ⊥\n"),
        (SITES, "stays s t (Deletes id) fresh acts = deleted s t id fresh acts\n", "stays s t (Deletes id) fresh acts = absurd acts.1\n"),
        (SITES, "absent s t (Deletes k) acts id none apart = ap (λ (z : SiteState). row_of id z.rows) acts ∙ none_without id k s.rows none\n", "absent s t (Deletes k) acts id none apart = absurd acts.1\n"),
        (BEGAN, "was_open s t (Deletes id) n x acts h = inl (subst (λ (z : SiteState). finite.get z.sessions.expected n ≡ Some x) acts h)\n", "was_open s t (Deletes id) n x acts h = absurd acts.1\n"),
        (DELETED, "in effect.2.now ∙ effect.1\n", "in effect.2.now ∙ effect.1.0\n")]),
    ("no_sign_in", "no sign-in by a response", [
        (WORLD, "PassesSignIn valid (judged_sign_in s n r) × IsAfterSignIn s n r t\n", "PassesSignIn valid (judged_sign_in s n r) × IsAfterSignIn s n r t × ⊥\n")]),
    ("no_sign_in_by_packets", "no sign-in by packets", [
        (WORLD, "c ps used r) × by_packets.IsAfter s n d c ps t\n", "c ps used r) × by_packets.IsAfter s n d c ps t × ⊥\n")]),
    ("no_registration", "no registration by a response", [
        (WORLD, "valid (with_room (judged_registration s n r)) × IsAfterRegistration s n r t\n", "valid (with_room (judged_registration s n r)) × IsAfterRegistration s n r t × ⊥\n")]),
    ("no_registration_by_packets", "no registration by packets", [
        (WORLD, "    × registering.IsAfter s n d c ps t\n", "    × registering.IsAfter s n d c ps t × ⊥\n")]),
    ("no_request", "no authenticator is asked", [
        (WORLD, "× ChangesHolder old new k (after_call (old.holder k) out)\n", "× ChangesHolder old new k (after_call (old.holder k) out) × ⊥\n")]),
    # relying parties and consent
    ("other_party_listed", "a listed credential answers any relying party", [
        (ORDERS, "is_of rp_id (Some c) = bytes_eq c.rp_id rp_id\n", "is_of rp_id (Some c) = true\n")]),
    ("other_party_resident", "a resident credential answers any relying party", [
        ("authenticator/specs/Credentials.antt", "is_resident_for rp_id c = c.resident && bytes_eq c.rp_id rp_id\n", "is_resident_for rp_id c = c.resident\n")]),
    ("other_party_signed", "an assertion has the hash of no rp id", [
        (STEPS, "rp_id_hash = sha256 c.rp_id;", "rp_id_hash = sha256 [];")]),
    ("other_party_made", "a credential is stored for no relying party", [
        (STEPS, "rp_id = q.rp.id;\n  user = q.user.id;", "rp_id = [];\n  user = q.user.id;")]),
    ("made_without_presence", "a credential is made without presence", [
        (ORDERS, "(not consent.present || (is_true flags.uv && not consent.verified), 0x27)", "(is_true flags.uv && not consent.verified, 0x27)")]),
    ("attested_without_verification", "UV is attested without verification", [
        (ORDERS, "(not consent.present || (is_true flags.uv && not consent.verified), 0x27)", "(not consent.present, 0x27)")]),
    # what a session expects
    ("session_user", "a session drops its user", [
        (SESSIONS, "words = record { user = user; allow", "words = record { user = None; allow")]),
    ("session_list", "a session drops its list", [
        (SESSIONS, "allow = allow; uv", "allow = []; uv")]),
    ("session_uv", "a session for sign-in drops its uv", [
        (SESSIONS, "allow = allow; uv = uv; challenge", "allow = allow; uv = false; challenge")]),
    ("registration_session_uv", "a session for registration drops its uv", [
        (SESSIONS, "algorithms = algorithms; uv = uv; challenge", "algorithms = algorithms; uv = false; challenge")]),
    ("session_algorithms", "a session drops its algorithms", [
        (SESSIONS, "algorithms = algorithms; uv", "algorithms = []; uv")]),
    ("session_words", "a session drops the words of its challenge", [
        (SESSIONS, "allow = allow; uv = uv; challenge = challenge_of n words }", "allow = allow; uv = uv; challenge = challenge_of n [] }"),
        (GOINGS, "new_challenge n (OpensSignIn user allow uv words) = (words, refl)\n", "new_challenge n (OpensSignIn user allow uv words) = ([], refl)\n"),
        (SITES, "new_bytes n (OpensSignIn user allow uv words) lt is = bytes-append (to_be_bytes w64 n) words (bytes_of_64 n lt) is\n",
            "new_bytes n (OpensSignIn user allow uv words) lt is = bytes-append (to_be_bytes w64 n) [] (bytes_of_64 n lt) (λ k. omega arith)\n")]),
    ("expires_anew", "expiry may open other sessions", [
        (WORLD, "  pub left : (n : ℕ) → (finite.get t.sessions.expected n ≡ None) ⊎ (finite.get t.sessions.expected n ≡ finite.get s.sessions.expected n)\n",
            "  pub left : (n : ℕ) → Unit {0}\n")]),
    ("bound_forgets", "a bound that is set lets the numbers begin again", [
        (WORLD, "with_bound max_open s = record s { sessions = record s.sessions { max_open = max_open } }\n",
            "with_bound max_open s = record s { sessions = record s.sessions { next = 1; max_open = max_open } }\n")]),
    # Level 3: frames, conditional creation, statements that were not asked for
    ("frame_unnamed", "a sign-in in another site's frame, though the site names no page",
        step("CrossOrigin", "ForSome (seen_of x.response.client_data) (MayBeFramed x.rp)", "h.says.1.1.1.1.0")),
    ("frame_top", "a sign-in in the frame of a page that the site does not name",
        step("WrongTopOrigin", "ForSome (seen_of x.response.client_data) (HasTopOrigin x.rp)", "h.says.1.1.1.1.1.0")),
    ("registration_frame_unnamed", "a registration in another site's frame, though the site names no page",
        registering("CrossOrigin", "ForSome (seen_of x.response.client_data) (MayBeFramed x.rp)", "h.says.1.1.1.1.0")),
    ("registration_frame_top", "a registration in the frame of a page that the site does not name",
        registering("WrongTopOrigin", "ForSome (seen_of x.response.client_data) (HasTopOrigin x.rp)", "h.says.1.1.1.1.1.0")),
    ("frame_any", "any page at the top is one that the site names", [
        (SHARED, "(page : List ℕ) × (seen.top_origin ≡ top.Named page) × Contains pages page\n", "(page : List ℕ) × (seen.top_origin ≡ top.Named page)\n")]),
    ("frame_crossed", "a page whose crossOrigin is true counts as unframed", [
        (SHARED, "IsUnframed seen = ((seen.cross_origin ≡ cross.Absent) ⊎ (seen.cross_origin ≡ cross.False)) × (seen.top_origin ≡ top.Absent)\n",
            "IsUnframed seen = seen.top_origin ≡ top.Absent\n")]),
    ("frame_topped", "a page with a topOrigin counts as unframed", [
        (SHARED, "IsUnframed seen = ((seen.cross_origin ≡ cross.Absent) ⊎ (seen.cross_origin ≡ cross.False)) × (seen.top_origin ≡ top.Absent)\n",
            "IsUnframed seen = (seen.cross_origin ≡ cross.Absent) ⊎ (seen.cross_origin ≡ cross.False)\n")]),
    ("frame_text", "a crossOrigin that is no truth value", [
        (SHARED, "IsUnframed seen ⊎ ((rp.top_origins ≢ []) × (seen.cross_origin ≢ cross.Other))\n", "IsUnframed seen ⊎ (rp.top_origins ≢ [])\n")]),
    ("frame_profile", "Level 3 passes any frame, as the open profile does", [
        (SHARED, "HasTopOrigin rp seen = rp.profile ≡ Level3 → ", "HasTopOrigin rp seen = rp.profile ≡ Open → ")]),
    ("presence_unasked", "in Level 3 no presence at any registration", [
        (REGISTRATION, "NeedsNoPresence profile e = (profile ≡ Level3) × (e.conditional ≡ true)\n", "NeedsNoPresence profile e = profile ≡ Level3\n")]),
    ("presence_open", "no presence at a conditional registration in any profile", [
        (REGISTRATION, "NeedsNoPresence profile e = (profile ≡ Level3) × (e.conditional ≡ true)\n", "NeedsNoPresence profile e = e.conditional ≡ true\n"),
        ("verification/proofs/Differing.antt", "inr (refl, flag valid x e is (λ (k : ExpectedRegistration). k.conditional) true conditional f also)",
            "inr (flag valid x e is (λ (k : ExpectedRegistration). k.conditional) true conditional f also)"),
        ("verification/proofs/Differing.antt", "let so = free.1 in absurd cc", "let so = free in absurd cc"),
        ("verification/proofs/Differing.antt", "| inr free ↦ absurd (other free.0)",
            "| inr free ↦ let not_so = flag valid x e is (λ (k : ExpectedRegistration). k.conditional) false usual f also in let so = free in absurd cc")]),
    ("statement_asked", "in Level 3 a statement that was asked for counts as none", [
        (REGISTRATION, "counted Level3 asked o = if asked then o else unattested o\n", "counted Level3 asked o = unattested o\n")]),
    ("statement_open", "no profile looks at a statement that was not asked for", [
        (REGISTRATION, "counted profile asked o = o\n", "counted profile asked o = if asked then o else unattested o\n")]),
    ("session_conditional", "each session for registration is conditional", [
        (SESSIONS, "  conditional = asks.conditional;\n", "  conditional = true;\n")]),
    ("session_attestation", "no session for registration asks for an attestation", [
        (SESSIONS, "  attestation = asks.attestation;\n", "  attestation = false;\n")]),
    # what never happens, and laws that say nothing of the run that is shown
    ("start_strict", "a world begins with strict sites alone", [
        (WORLD, "  pub sites : (i : ℕ) → (w.site i).sessions.expected ≡ finite.empty\n",
            "  pub sites : (i : ℕ) → (w.site i).sessions.expected ≡ finite.empty\n  pub strict : (i : ℕ) → (w.site i).rp.profile ≡ Strict\n"),
        (WORLD, "use Rattle.authdata.specs.Responses as responses\n", "use Rattle.authdata.specs.Responses as responses\nuse Rattle.authdata.specs.declared.profile.Profile.TheVariants.{Strict}\n"),
        (ONE_RUN, "      sites = λ i. refl;\n", "      sites = λ i. refl;\n      strict = λ i. refl;\n"),
        (EVERYTHING, "start = record { sites = λ i. t.start.sites p.site;", "start = record { sites = λ i. t.start.sites p.site; strict = λ i. t.start.strict p.site;")]),
    ("start_one_party", "a world begins with sites of one rp id", [
        (WORLD, "  pub sites : (i : ℕ) → (w.site i).sessions.expected ≡ finite.empty\n",
            "  pub sites : (i : ℕ) → (w.site i).sessions.expected ≡ finite.empty\n  pub one : (i : ℕ) → (w.site i).rp.rp_id ≡ (w.site 0).rp.rp_id\n"),
        (ONE_RUN, "      sites = λ i. refl;\n", "      sites = λ i. refl;\n      one = λ i. refl;\n"),
        (EVERYTHING, "start = record { sites = λ i. t.start.sites p.site;", "start = record { sites = λ i. t.start.sites p.site; one = λ i. refl;")]),
    ("reset_never", "no reset is carried out", [
        (STEPS, "  pub reply : ReplyOf reset_reply out.reply\n", "  pub reply : ⊥\n")]),
    ("next_never", "each getNextAssertion is refused", [
        (ORDERS, "    (is_none remembered, 0x30)\n    ∷ (next_is_at_end", "    (true, 0x30)\n    ∷ (next_is_at_end")]),
    ("self_attested_never", "no authenticator attests by the key itself", [
        (STEPS, "purpose = attestation; consent = consent } ∷ [])\n", "purpose = attestation; consent = consent } ∷ []) × ⊥\n")]),
    ("forgery_ideal", "a forgery is shown only where no signature is forged", [
        (FORGERIES, "WasMade m.old row.key\n      → (IsBacked", "WasMade m.old row.key → IsIdeal valid m\n      → (IsBacked"),
        (FORGERIES, "{Consented, IsAccepted, RestsOn,", "{Consented, IsAccepted, IsIdeal, RestsOn,"),
        (ACCEPTED, "shows = λ i n r row acc made not_backed. record {", "shows = λ i n r row acc made ideal not_backed. record {")]),
    ("page_any_text", "no text at all may have the hash of the accepted client data", [
        (PAGES, "    → All (λ t. sha256 t ≡ sha256 r.client_data → t ≡ r.client_data) texts\n", "    → ((t : List ℕ) → sha256 t ≡ sha256 r.client_data → t ≡ r.client_data)\n"),
        (PAGED, "(clear : All (λ t. sha256 t ≡ sha256 r.client_data → t ≡ r.client_data) texts) where", "(clear : (t : List ℕ) → sha256 t ≡ sha256 r.client_data → t ≡ r.client_data) where"),
        (PAGED, "        All-contains (λ (t : List ℕ). sha256 t ≡ sha256 r.client_data → t ≡ r.client_data) texts over.0 clear over.1 (sym over.2 ∙ same) in\n",
            "        clear over.0 (sym over.2 ∙ same) in\n")]),
    ("stays_alone", "a session stays open only while nothing happens", [
        (STAYS, "All (λ m. IsEnd i n m → ⊥) between → IsOpen (world_after w (past ++ between)) i n x\n",
            "All (λ m. IsEnd i n m → ⊥) between → between ≡ [] → IsOpen (world_after w (past ++ between)) i n x\n"),
        (STAYED, "still_open = λ i n x there none. open_after", "still_open = λ i n x there none alone. open_after")]),
    ("accepts_alone", "a session accepts what it would have accepted only while nothing happens", [
        (STAYS, "IsOpen (world_after w past) i n x → All (λ m. IsEnd i n m → ⊥) between\n      → ((world_after",
            "IsOpen (world_after w past) i n x → All (λ m. IsEnd i n m → ⊥) between → between ≡ []\n      → ((world_after"),
        (STAYED, "accepted = λ i n x r there none party row passes.", "accepted = λ i n x r there none alone party row passes.")]),
    ("shared_of_one_response", "two sign-ins share no entry only where their response is one", [
        (AGREEMENT, "IsAccepted l i k t low → r.credential ≡ t.credential\n", "IsAccepted l i k t low → r ≡ t\n"),
        (ACCEPTED, "(a.id ∙ same) ∙ al.tries.found in", "(a.id ∙ ap (λ (z : AuthenticatorAssertionResponse). z.credential) same) ∙ al.tries.found in")]),
    ("begun_at_the_end", "what a session expects is told only where the run ends", [
        (BEGUN, "IsRun valid public w (past ++ later)\n", "IsRun valid public w (past ++ later) → later ≡ []\n"),
        (BEGUN, "use Rattle.std.specs.Prelude.{◌≡◌, ◌<◌, ◌^◌, ℕ, List, ◌∷◌,", "use Rattle.std.specs.Prelude.{◌≡◌, ◌<◌, ◌^◌, ℕ, List, [], ◌∷◌,"),
        (BEGAN, "  began w past later start run =\n", "  began w past later start run ends =\n")]),
    ("dropped_in_part", "a credential goes by what leaves some", [
        (DROPPED, "    → credential_of c.id (m.old.holder k).state.credentials ≡ Some c → credential_of", "    → (m.new.holder k).state.credentials ≢ [] → credential_of c.id (m.old.holder k).state.credentials ≡ Some c → credential_of"),
        (DROPPED, "use Rattle.std.specs.Prelude.{◌≡◌, ℕ, List, true,", "use Rattle.std.specs.Prelude.{◌≡◌, ◌≢◌, ℕ, List, [], true,"),
        (DROPPING, "  dropped_of_all_runs w run is m there k c =\n", "  dropped_of_all_runs w run is m there k c some =\n")]),
    ("registered_strict", "a registration is as it is said only at a strict site", [
        (AGREEMENT, "IsAcceptedRegistration m i n r → FitsRegistration valid m i n r\n", "IsAcceptedRegistration m i n r → (m.old.site i).rp.profile ≡ Strict → FitsRegistration valid m i n r\n"),
        (AGREEMENT, "Profile.TheVariants.{Level3}\n", "Profile.TheVariants.{Level3, Strict}\n"),
        (REGISTERED, "  fits_registration m l i n r is =\n", "  fits_registration m l i n r is strict =\n")]),
    ("deleted_alone", "a credential stays deleted only while nothing happens", [
        (AGREEMENT, "HasNone (m.new.site i) id → All (λ x. (c : Credential) → Adds x i c → c.id ≢ id) between → HasNone", "HasNone (m.new.site i) id → All (λ x. (c : Credential) → Adds x i c → c.id ≢ id) between → between ≡ [] → HasNone"),
        ("agreement/proofs/Deleted.antt", "  stays_deleted m between l lm s i id none each = s.none", "  stays_deleted m between l lm s i id none each alone = s.none")]),
    # hosts
    ("host_anything", "a host's relation may call anything valid", [
        (HOSTS, "(key : CoseKey) (message signature : List ℕ) → narrow key message signature → wide key message signature\n", "Unit {0}\n")]),
    # more of the steps
    ("user_unnamed", "nobody need be named, by session or response", [
        (SIGN_IN, "AreUser None None user = ⊥\n", "AreUser None None user = Unit {0}\n")]),
    ("user_shown", "a response may name another user", [
        (SIGN_IN, "AreUser (Some x) (Some y) user = (x ≡ user) × (y ≡ user)\n", "AreUser (Some x) (Some y) user = x ≡ user\n"),
        (SIGNING_IN, "named true user = (refl, refl)\n", "named true user = refl\n"),
        (SIGNING_IN, "newest_named (Some u) user h = (h u refl, refl)\n", "newest_named (Some u) user h = h u refl\n"),
        (ACCEPTED, "∙ h.0; shown", "∙ h; shown")]),
    ("user_expected", "a response may name another user than the session's", [
        (SIGN_IN, "AreUser (Some x) (Some y) user = (x ≡ user) × (y ≡ user)\n", "AreUser (Some x) (Some y) user = y ≡ user\n"),
        (SIGNING_IN, "named true user = (refl, refl)\n", "named true user = refl\n"),
        (SIGNING_IN, "newest_named (Some u) user h = (h u refl, refl)\n", "newest_named (Some u) user h = refl\n"),
        (ACCEPTED, "∙ h.1; someone", "∙ h; someone")]),
    ("unknown_credential", "a credential that is not registered signs in", [
        (SIGN_IN, "IsSome x.credential × ForSome x.credential (λ c. (c.id", "Unit {0} × ForSome x.credential (λ c. (c.id"),
        (SIGNING_IN, "(rw h.registered refl, of_some _ x.credential c h.registered (h.same_id", "(tt, of_some _ x.credential c h.registered (h.same_id")]),
    ("counter_zero", "a counter of 0 may follow any", [
        (SIGN_IN, "((stored ≡ 0) × (received ≡ 0)) ⊎", "(Unit {0} × (received ≡ 0)) ⊎")]),
    # more of a site and its sessions
    ("registered_unseen", "an id may be registered twice", [
        (SITE, "is_registered = λ id. is_some (row_of id s.rows);", "is_registered = λ id. false;"),
        (SITE, "length, is_some, not,", "length, not,")]),
    ("registered_count", "a registration stores the counter 0", [
        (SITE, "  key = c.key;\n  sign_count = a.sign_count;\n", "  key = c.key;\n  sign_count = 0;\n")]),
    ("registered_user", "a registration is stored for no user", [
        (SITE, "  user = e.user;\n  key = c.key;\n", "  user = [];\n  key = c.key;\n")]),
    ("registration_signs_in", "a session for registration answers a sign-in", [
        (SESSIONS, "for_sign_in (Some (ForRegistration e)) = None\n",
            "for_sign_in (Some (ForRegistration e)) = Some (record { user = Some e.user; allow = []; uv = e.uv; challenge = e.challenge })\n"),
        (SESSIONS, "length, Bool, true, false, Option, Some, None}", "length, [], Bool, true, false, Option, Some, None}")]),
    ("abandoned", "an abandoned session stays open", [
        ("site/specs/Laws.antt", "after_abandon s n = record s { sessions = closed n s.sessions }\n", "after_abandon s n = s\n"),
        (GOINGS, "goes_closed s n = record { rows = (stays s).rows; gone = λ k h. gone_closed s s.rows n k h; rp = refl }\n", "goes_closed s n = stays s\n"),
        (GOINGS, "record { numbered = numbered_closed s s.rows n; fresh = fresh_closed s s.rows n fresh; goes_on = goes_closed s n };",
            "record { numbered = λ h. h; fresh = fresh; goes_on = goes_closed s n };"),
        (SITES, "keeps = b.sites.abandons s n fresh; bytes = λ old k e h. old k e (still s n k e h) })", "keeps = b.sites.abandons s n fresh; bytes = λ old. old })"),
        (BEGAN, "was_open s t (Abandons k) n x acts h = inl (still s k n x (subst (λ (z : SiteState). finite.get z.sessions.expected n ≡ Some x) acts h))\n",
            "was_open s t (Abandons k) n x acts h = inl (subst (λ (z : SiteState). finite.get z.sessions.expected n ≡ Some x) acts h)\n")]),
    ("challenge_zero", "each challenge begins with the number 0", [
        (SESSIONS, "allow = allow; uv = uv; challenge = challenge_of n words }", "allow = allow; uv = uv; challenge = challenge_of 0 words }")]),
    # more of an authenticator
    ("id_taken", "an id that is stored may be stored again", [
        (ORDERS, "∷ (is_some (credential_of words.id a.credentials), 0x7F)", "∷ (false, 0x7F)")]),
    ("room", "one credential more than there is room for", [
        (ORDERS, "(nat_le 256 (length (kept a.credentials q)), 0x28)", "(nat_le 257 (length (kept a.credentials q)), 0x28)")]),
    ("attested_party", "an attestation has the hash of no rp id", [
        (STEPS, "rp_id_hash = sha256 q.rp.id;", "rp_id_hash = sha256 [];")]),
    ("chosen", "a key of an algorithm that was not asked for is made", [
        (STEPS, "  pub chosen : first_supported q.pub_key_cred_params ≡ Some alg\n", "  pub chosen : Unit {0}\n"),
        ("authenticator/proofs/Refusing.antt", "record { alg = alg; chosen = chosen; shown = r;", "record { alg = alg; chosen = tt; shown = r;")]),
    ("noted_key", "another key is noted than the credential's", [
        (STEPS, "  pub made : out.made ≡ public alg words.secret ∷ []\n", "  pub made : out.made ≡ public alg [] ∷ []\n")]),
    ("decides_unasked", "a decision is on any request, and not the one that waits", [
        ("security_key/specs/Serving.antt", "Serves valid public n s a (act.Decide consent words) d =\n    (c : ℕ) × (payload : List ℕ) × (reply : List ℕ) × (work s ≡ Some (c, payload))",
            "Serves valid public n s a (act.Decide consent words) d =\n    (c : ℕ) × (payload : List ℕ) × (reply : List ℕ) × Unit {0}"),
        ("security_key/proofs/Acting.antt", "  f.0,\n  asks.2,\n  f.2,\n", "  f.0,\n  tt,\n  f.2,\n"),
        ("agreement/proofs/Exchanged.antt", "serves = (c, m, reply, refl, payload, steps, refl, refl);", "serves = (c, m, reply, tt, payload, steps, refl, refl);")]),
    ("reset_unasked", "a reset is done without presence", [
        (ORDERS, "reset_order consent = (not consent.present, 0x27) ∷ []", "reset_order consent = (false, 0x27) ∷ []")]),
    ("replaced_other_party", "a resident credential replaces another relying party's", [
        ("authenticator/specs/Credentials.antt", "is_resident_of rp_id user c = is_resident_for rp_id c && bytes_eq c.user user",
            "is_resident_of rp_id user c = c.resident && bytes_eq c.user user")]),
    ("replaced_other_user", "a resident credential replaces another user's", [
        ("authenticator/specs/Credentials.antt", "is_resident_of rp_id user c = is_resident_for rp_id c && bytes_eq c.user user",
            "is_resident_of rp_id user c = is_resident_for rp_id c")]),
    ("replaced_unasked", "a credential that is not resident replaces one that is", [
        (ORDERS, "if is_true (creation_flags q.options).rk then without_first", "if not (is_true (creation_flags q.options).rk) then without_first"),
        (SOUNDNESS, "= stays (is_true (creation_flags q.options).rk)", "= stays (not (is_true (creation_flags q.options).rk))"),
        (LEDGER, "those_kept P cs q h = either (is_true (creation_flags q.options).rk)", "those_kept P cs q h = either (not (is_true (creation_flags q.options).rk))"),
        (LEDGER, "use Rattle.std.specs.Prelude.{IfSome, if◌then◌else◌, length}", "use Rattle.std.specs.Prelude.{IfSome, if◌then◌else◌, length, not}")]),
    # more of the world
    ("packets_any", "whatever the packets carry counts as a reply", [
        ("ceremony/specs/Verdict.antt", "Succeeds k c ps n r = (m : List ℕ) × Delivers c ps n m × k.IsReply r m × k.PassesSite r\n",
            "Succeeds k c ps n r = (m : List ℕ) × Delivers c ps n m × Unit {0} × k.PassesSite r\n")]),
    ("start_sessions", "sessions are open at the start", [
        (WORLD, "  pub sites : (i : ℕ) → (w.site i).sessions.expected ≡ finite.empty\n", "  pub sites : (i : ℕ) → Unit {0}\n"),
        (ONE_RUN, "      sites = λ i. refl;\n", "      sites = λ i. tt;\n")]),
    ("start_signed", "authenticators have signed before the start", [
        (WORLD, "  pub signed : h.signed ≡ []\n", "  pub signed : Unit {0}\n"), (ONE_RUN, "state = refl; signed = refl; made", "state = refl; signed = tt; made")]),
    ("start_made", "authenticators have made keys before the start", [
        (WORLD, "  pub made : h.made ≡ []\n", "  pub made : Unit {0}\n"), (ONE_RUN, "signed = refl; made = refl }", "signed = refl; made = tt }")]),
    ("nothing_changes", "an event without effect may change the world", [
        (WORLD, "Happens valid public old e Nothing new = new ≡ old\n", "Happens valid public old e Nothing new = Unit {0}\n")]),
    ("other_sites", "an event at one site changes others", [
        (WORLD, "  pub others : (j : ℕ) → j ≢ i → new.site j ≡ old.site j\n", "  pub others : (j : ℕ) → j ≢ i → Unit {0}\n"),
        (LIVED, "changes_site i s w = record { now = site_there i s w; others = λ j apart. other j apart;", "changes_site i s w = record { now = site_there i s w; others = λ j apart. tt;")]),
    ("holders_at_sites", "an event at a site changes authenticators", [
        (WORLD, "  pub holders : (k : ℕ) → new.holder k ≡ old.holder k\n", "  pub holders : (k : ℕ) → Unit {0}\n"),
        (LIVED, "others = λ j apart. other j apart; holders = λ k. refl }", "others = λ j apart. other j apart; holders = λ k. tt }")]),
    ("other_holders", "a request to one authenticator changes others", [
        (WORLD, "  pub others : (j : ℕ) → j ≢ k → new.holder j ≡ old.holder j\n", "  pub others : (j : ℕ) → j ≢ k → Unit {0}\n"),
        (LIVED, "changes_holder k h g w same = record { now = holder_there k h w ∙ same; others = λ j apart. other j apart;",
            "changes_holder k h g w same = record { now = holder_there k h w ∙ same; others = λ j apart. tt;")]),
    ("sites_at_holders", "a request to an authenticator changes sites", [
        (WORLD, "  pub sites : (i : ℕ) → new.site i ≡ old.site i\n", "  pub sites : (i : ℕ) → Unit {0}\n"),
        (LIVED, "others = λ j apart. other j apart; sites = λ i. refl }", "others = λ j apart. other j apart; sites = λ i. tt }")]),
    ("loaded_party", "a site loads as another relying party", [
        (WORLD, "  pub rp_id : t.rp.rp_id ≡ s.rp.rp_id\n  pub none_open", "  pub rp_id : Unit {0}\n  pub none_open"),
        ("agreement/proofs/CallsActed.antt", "  rp_id = ap (λ (x : SiteState). x.rp.rp_id) loaded.1 ∙ same;\n", "  rp_id = tt;\n"),
        (EVERYTHING, "rp_id = refl;\n                                    none_open", "rp_id = tt;\n                                    none_open")]),
    # more of hosts' runs
    ("host_unbound", "a host's relation need not be within the wide one", [
        (HOSTS, "((i : I) × IsWithin (narrow i) wide × Happens", "((i : I) × Unit {0} × Happens")]),
    ("host_apart", "a host's moments need not follow one another", [
        (HOSTS, "    (m.old ≡ w) × ((i : I)", "    Unit {0} × ((i : I)")]),
    *weakenings_of_stores.WEAKENINGS,
]
