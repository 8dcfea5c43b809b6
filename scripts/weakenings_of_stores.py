"""Weakenings of sites over a store, of premises, and of a key's PIN; weakenings.py has the form."""
from weakened_files import *

WEAKENINGS = [
    # of a site over a store
    ("stored_steps", "a stored site's sign-in passes no step", [
        (STORED, "  pub passes : PassesSignIn valid (judged_sign_in s (Some expected) (Some credential) r)\n", "  pub passes : Unit {0}\n")]),
    ("stored_credential", "a stored site signs in by any credential", [
        (STORED, "  pub found : IsAt placed r.credential place credential\n", "  pub found : Unit {0}\n")]),
    ("stored_counter", "a stored site keeps no counter that came", [
        (STORED, "finite.insert placed place (signed_in data_read.sign_count (is_set data_read.flags BE) credential)", "finite.insert placed place credential")]),
    ("stored_registration", "a stored site's registration passes no step", [
        (STORED, "TellsIds placed is_registered → PassesRegistration valid (judged_registration s (Some expected) is_registered r)", "TellsIds placed is_registered → Unit {0}")]),
    ("stored_user", "a stored site registers for no user", [(STORED, "  user = e.user;\n", "  user = c.id;\n")]),
    ("stored_retirement", "a stored site retires nothing", [
        (STORED, "(c.retired ≡ false) × (after ≡ finite.insert placed place (retired c))", "(c.retired ≡ false) × (after ≡ placed)")]),
    ("stored_deletion", "a stored site deletes nothing", [
        (STORED, "IsAt placed id place c × (after ≡ finite.remove placed place)", "IsAt placed id place c × (after ≡ placed)")]),
    ("stored_numbers", "a commit gives numbers anew", [
        (STORED, "        next = max old.next old.durable;\n", "        next = 1;\n")]),
    ("stored_trees", "an open finds any trees", [
        (HISTORY, "  pub trees : new.trees ≡ kept.trees\n", "  pub trees : Unit {0}\n"),
        (STAGES, "record { trees = refl; rp_id = refl;", "record { trees = tt; rp_id = refl;")]),
    ("stored_party", "an open finds another rp id", [
        (HISTORY, "  pub rp_id : new.state.rp.rp_id ≡ kept.state.rp.rp_id\n", "  pub rp_id : Unit {0}\n"),
        (STAGES, "record { trees = refl; rp_id = refl;", "record { trees = refl; rp_id = tt;")]),
    ("stored_commit", "what is told need not be committed", [
        (AMONG, "commits (Stores (Opens finds_all)) rest = finds_all\n", "commits (Stores (Opens finds_all)) rest = true\n")]),
    ("stored_key", "an open finds another key", [
        (HISTORY, "  pub key : new.state.key ≡ kept.state.key\n", "  pub key : Unit {0}\n"),
        (STAGES, "rp_id = refl; key = refl;", "rp_id = refl; key = tt;")]),
    ("stored_going_on", "an open gives numbers anew", [
        (HISTORY, "  pub next : new.state.next ≡ new.state.reserved\n", "  pub next : Unit {0}\n"),
        (STAGES, "key = refl; next = refl }", "key = refl; next = tt }")]),
    ("stored_handed", "a text need not be handed out", [
        (HISTORY, "(b : Begun) × Contains begun b × (b.text ≡ text)\n", "(b : Begun) × Contains begun b × (b.text ≡ b.text)\n")]),
    ("stored_hashes", "the hashes of a text need not tell users and ids apart", [
        (HISTORY, "TellsThem key (ForSignIn e) handle id = TellsApart key e handle id\n", "TellsThem key (ForSignIn e) handle id = Unit {0}\n"),
        (SHOWN, "λ place c is. record { user = tt; ids = tt }", "λ place c is. tt")]),
    ("stored_clock", "the clock may go back", [
        (HISTORY, "  pub later : old.second ≤ second_of c\n", "  pub later : 0 ≤ second_of c\n"),
        (SHOWN, "    own = own;\n    later = later;\n", "    own = own;\n    later = omega arith;\n")]),
    ("stored_scenes", "the acts of a history need not follow one another", [
        (AMONG, "    (turn.old ≡ scene) × ((v : I)", "    Unit {0} × ((v : I)"),
        (SHOWN, "play rest = (refl, (tt,", "play rest = (tt, (tt,")]),
    ("stored_within", "a call's relation need not be within the wide one", [
        (AMONG, "((v : I) × IsWithin (narrow v) wide × Plays", "((v : I) × Unit {0} × Plays"),
        (SHOWN, "(tt, λ k m s is. is, play)", "(tt, tt, play)")]),
    ("stored_elsewhere", "what happens elsewhere may be at the site", [
        (AMONG, "IsElsewhere i (AtSite j e) = j ≢ i\n", "IsElsewhere i (AtSite j e) = Unit {0}\n")]),
    ("stored_alone", "a step of the store changes the world", [
        (AMONG, "IsKept new.store.now × (new.world ≡ old.world)\n", "IsKept new.store.now × Unit {0}\n"),
        (SHOWN, "more (takes, kept, refl) rest", "more (takes, kept, tt) rest")]),
    ("stored_untouched", "an event elsewhere changes the store", [
        (AMONG, "old.world e end new.world × (new.store ≡ old.store)\n", "old.world e end new.world × Unit {0}\n"),
        (SHOWN, "more (apart, effect, refl) rest", "more (apart, effect, tt) rest")]),
    ("stored_sealed", "a history may start with texts that are not the site's own", [
        (HISTORY, "  pub begun : AreBegun s.now.state.key s.now.state.rp.rp_id s.now.state.next s.begun\n", "  pub begun : Unit {0}\n"),
        (SHOWN, "      begun = begun_none;\n", "      begun = tt;\n")]),
    ("stored_known", "an ending need not be known where a history starts", [
        (HISTORY, "  pub known : (b : Begun) (e : Ending) → Contains s.begun b → finite.get s.now.ended b.number ≡ Some e → b.ends ≤ e.until\n",
            "  pub known : Unit {0}\n"),
        (SHOWN, "      known = λ x e there. absurd (none_begun x there);\n", "      known = tt;\n")]),
    ("stored_whole", "a history may start where all is not committed", [
        (HISTORY, "  pub committed : s.committed ≡ s.now\n", "  pub committed : Unit {0}\n"),
        (SHOWN, "      committed = refl;\n      named", "      committed = tt;\n      named")]),
    ("stored_endings", "a crash forgets what has ended", [
        (HISTORY, "  pub ended : HoldsEndings ended_session_tree k.ended k.trees\n", "  pub ended : Unit {0}\n"),
        (STAGES, "  ended = refl;\n  given", "  ended = tt;\n  given", 2)]),
    ("stored_session", "a response is for another session than its text's", [
        (HISTORY, "old.ended new.ended) × (ends.0 ≡ n)", "old.ended new.ended) × Unit {0}")]),
    ("stored_early", "a text is handed out before its number is reserved", [
        (HISTORY, "handed_out k begun = filter (λ b. nat_lt b.number k.state.reserved) begun", "handed_out k begun = begun")]),
    # more is asked before the laws speak
    ("premise_start", "a run begins where no site has a credential", [
        (WORLD, "  pub sites : (i : ℕ) → (w.site i).sessions.expected ≡ finite.empty\n", "  pub sites : (i : ℕ) → (w.site i).sessions.expected ≡ finite.empty\n  pub rows : (i : ℕ) → (w.site i).rows ≡ []\n"),
        (ONE_RUN, "      sites = λ i. refl;\n", "      sites = λ i. refl;\n      rows = λ i. refl;\n"),
        (EVERYTHING, "start = record { sites = λ i. t.start.sites p.site;", "start = record { sites = λ i. t.start.sites p.site; rows = λ i. t.start.rows p.site;")]),
    ("premise_ideal", "signatures are forged where one that is not valid was not made", [
        (AGREEMENT, "Tries m i n r row → valid row.key (message_of r) r.signature\n    → WasMade", "Tries m i n r row\n    → WasMade"),
        (ACCEPTED, "ideal i n r row acc.tries (signature_valid m l i n r row acc) made", "ideal i n r row acc.tries made"),
        (LIVED, "tried is_valid was_made =", "tried was_made ="), (LIVED, "tried v w =", "tried w =", 5),
        (EVERYTHING, "tried is_valid was_made =", "tried was_made ="), (EVERYTHING, "tried v w =", "tried w =")]),
    ("premise_ideal_any_key", "signatures are forged under a key that no authenticator has made", [
        (AGREEMENT, "valid row.key (message_of r) r.signature\n    → WasMade m.old row.key → WasSigned", "valid row.key (message_of r) r.signature\n    → WasSigned"),
        (ACCEPTED, "(signature_valid m l i n r row acc) made)", "(signature_valid m l i n r row acc))"),
        (LIVED, "tried is_valid was_made =", "tried is_valid ="), (LIVED, "tried v w =", "tried v =", 5),
        (EVERYTHING, "tried is_valid was_made =", "tried is_valid ="), (EVERYTHING, "tried v w =", "tried v =")]),
    ("premise_registration", "no registration by a response is an accepted one", [
        (AGREEMENT, "BringsNewTo (Registers k s) n r = (k ≡ n) × (s ≡ r)\n", "BringsNewTo (Registers k s) n r = ⊥\n"),
        (SITES, """registered_in s t (Registers k q) n r acts brings =
      subst (λ (j : ℕ). Registered s j r t) brings.0
      (subst (λ (z : responses.AuthenticatorAttestationResponse). Registered s k z t) brings.1 (record { passes = acts.0; after = acts.1 }))
""", "registered_in s t (Registers k q) n r acts brings = absurd brings\n")]),
    ("premise_registration_packets", "no registration by packets is an accepted one", [
        (AGREEMENT, "BringsNewTo (RegistersBy k c ps t) n r = (k ≡ n) × CarriedNew c ps t r\n", "BringsNewTo (RegistersBy k c ps t) n r = ⊥\n"),
        (SITES, "registered_in s t (RegistersBy k c ps d) n r acts brings = subst (λ (j : ℕ). Registered s j r t) brings.0 (registered_with s t k c ps d r acts brings.1)\n",
            "registered_in s t (RegistersBy k c ps d) n r acts brings = absurd brings\n")]),
    ("premise_session", "a registration by a response answers no session", [
        (AGREEMENT, "session_in (Registers n r) = Some n\n", "session_in (Registers n r) = None\n"),
        (SITES, """takes s t (Registers k r) n fresh acts is =
      subst (Takes s t) (same_Some k n is) (takes_registered s t k r fresh (record { passes = acts.0; after = acts.1 }))
""", "takes s t (Registers k r) n fresh acts is = let bad : None ≡ Some n = is in absurd cc\n")]),
    ("premise_undeleted", "a credential is deleted where any site deletes its id", [
        (AGREEMENT, "NoneDeleted i id moments = All (λ m. IsDeleted i id m → ⊥) moments\n", "NoneDeleted i id moments = All (λ m. (j : ℕ) → IsDeleted j id m → ⊥) moments\n"),
        (ACCEPTED, "(recursion_from_All (λ x. IsDeleted i r.credential x → ⊥) between kept)",
            "(recursion_from_All (λ x. IsDeleted i r.credential x → ⊥) between (All-weaker (λ x. (j : ℕ) → IsDeleted j r.credential x → ⊥) (λ x. IsDeleted i r.credential x → ⊥) (λ x h. h i) between kept))"),
        (ACCEPTED, "Elements.{All-contains,", "Elements.{All-weaker, All-contains,"),
        (RETIRED, "recursion_from_All (λ y. IsDeleted i id y → ⊥) (m ∷ between) undeleted",
            "recursion_from_All (λ y. IsDeleted i id y → ⊥) (m ∷ between) (All-weaker (λ y. (j : ℕ) → IsDeleted j id y → ⊥) (λ y. IsDeleted i id y → ⊥) (λ y h. h i) (m ∷ between) undeleted)"),
        (RETIRED, "Elements.{", "Elements.{All-weaker, ")]),
    ("premise_once_sites", "two sign-ins at one site may rest on one entry", [
        (AGREEMENT, "IsAccepted m i n r row → IsAccepted l j k t low\n    → (sha256", "IsAccepted m i n r row → IsAccepted l j k t low → i ≢ j\n    → (sha256"),
        (ACCEPTED, "i j n k r t row low am al apart clear own e rm rl =", "i j n k r t row low am al two apart clear own e rm rl =")]),
    ("premise_once_key", "two sign-ins for credentials of two keys may rest on one entry", [
        (AGREEMENT, "IsAccepted m i n r row → IsAccepted l j k t low\n    → (sha256", "IsAccepted m i n r row → IsAccepted l j k t low → row.key ≡ low.key\n    → (sha256"),
        (ACCEPTED, "i j n k r t row low am al apart clear own e rm rl =", "i j n k r t row low am al one apart clear own e rm rl =")]),
    ("premise_hosts_run", "a hosts' run has no call that is refused", [
        (HOSTS, "m.old m.event m.end m.new) × IsHostsRun narrow wide public m.new ms\n\npub record", "m.old m.event m.end m.new) × IsHostsRun narrow wide public m.new ms × (m.end ≡ Done)\n\npub record"),
        (HOSTS, "World.{Happens,", "World.{Done, Happens,")]),
    ("premise_honest_registration", "an honest registration is on channel 1 alone", [
        (HONEST, "  pub verified : x.options.uv ≡ x.expected.uv\n  pub offered", "  pub verified : x.options.uv ≡ x.expected.uv\n  pub on_channel : x.channel ≡ 1\n  pub offered"),
        (ONE_RUN, "    not_excluded = refl;\n", "    not_excluded = refl;\n    on_channel = refl;\n")]),
    ("premise_honest_sign_in", "an honest sign-in is on channel 1 alone", [
        (HONEST, "  pub allow : x.options.allow ≡ x.expected.allow\n", "  pub allow : x.options.allow ≡ x.expected.allow\n  pub on_channel : x.channel ≡ 1\n"),
        (ONE_RUN, "    allow = refl;\n", "    allow = refl;\n    on_channel = refl;\n")]),
    # what ends a session, and which pages asked
    ("stays_begin", "a begin may end another's session", [
        (STAYS, "MayEnd Restarts n = Unit {0}\n", "MayEnd Restarts n = Unit {0}\nMayEnd (Begins o) n = Unit {0}\n"),
        (STAYS, "World.{Abandons, AtSite,", "World.{Abandons, AtSite, Begins,"),
        (STAYED, "stays_at (Begins o) fresh acts none = subst OpenIn (sym acts.2) (b.sites.stays_open s o n x fresh h)", "stays_at (Begins o) fresh acts none = absurd (none tt)")]),
    ("stays_other", "a session ends when another is answered", [
        (STAYS, "MayEnd (SignsIn k r) n = k ≡ n\n", "MayEnd (SignsIn k r) n = Unit {0}\n"),
        (STAYED, "left_by_sign_in k r (record { passes = acts.0; after = acts.1 }) none\n", "absurd (none tt)\n")]),
    ("stays_reopened", "each session ends where a site is opened again", [
        (STAYS, "MayEnd Restarts n = Unit {0}\n", "MayEnd Restarts n = Unit {0}\nMayEnd Reopens n = Unit {0}\n"),
        (STAYS, "RegistersBy, Restarts,", "RegistersBy, Reopens, Restarts,"),
        (STAYED, "stays_at Reopens fresh acts none = subst (λ (z : OpenSessions). finite.get z.expected n ≡ Some x) (sym acts.sessions) h", "stays_at Reopens fresh acts none = absurd (none tt)")]),
    ("stays_refused", "a session ends by what is refused", [
        (STAYS, "(m.event ≡ AtSite i e) × (m.end ≡ Done) × MayEnd e n\n", "(m.event ≡ AtSite i e) × MayEnd e n\n"),
        (STAYED, "none (e, here, ends, may)", "none (e, here, may)")]),
    ("stays_elsewhere", "a session ends by what another site does", [
        (STAYS, "IsEnd i n m = (e : SiteEvent) × (m.event ≡ AtSite i e)", "IsEnd i n m = (j : ℕ) × (e : SiteEvent) × (m.event ≡ AtSite j e)"),
        (STAYED, "none (e, here, ends, may)", "none (i, e, here, ends, may)")]),
    ("stays_empty", "a reset is one that finds no credential", [
        (STAYS, "consent.present ≡ true\n    → (m.new.holder k)", "consent.present ≡ true → (m.old.holder k).state.credentials ≡ []\n    → (m.new.holder k)"),
        (STAYED, "resets m h k channel consent words asked present =", "resets m h k channel consent words asked present none =")]),
    ("pages_none", "no client data name a page", [
        (PAGES, "  pub reads : seen_of client_data ≡ Some seen\n", "  pub reads : seen_of client_data ≡ Some seen\n  pub never : ⊥\n")]),
    ("pages_never", "an authenticator was asked from pages only where it was never asked", [
        (PAGES, "Contains texts t × (q.client_data_hash ≡ sha256 t)\n", "Contains texts t × (q.client_data_hash ≡ sha256 t) × ⊥\n")]),
    # of a key's PIN
    ("pin_any_param", "any pinUvAuthParam counts", [
        (PIN_HOST, "  if bytes_eq (shortened protocol tag) param then Ok tt else Err (refused 0x33)\n", "  if true then Ok tt else Err (refused 0x33)\n"),
        (PIN_HOST, "use Rattle.std.specs.Prelude.{ℕ, ◌==◌,", "use Rattle.std.specs.Prelude.{true, ℕ, ◌==◌,")]),
    ("pin_default_for_all", "getPinToken gives each permission", [
        (PIN_STEPS, "Ok (begun, record { permissions = 3; rp_id = None })", "Ok (begun, record { permissions = 255; rp_id = None })")]),
    ("pin_unbound", "a token that was used is for each rp id still", [
        (PIN_GRANTS, "bound rp_id t = record t { rp_id = Some rp_id }", "bound rp_id t = t")]),
    ("pin_unspent", "a token that was used keeps its permissions", [
        (PIN_STATE, "without_permissions t = record t { permissions = 0 }", "without_permissions t = t")]),
    ("pin_retries_untold", "eight retries are told, however many are left", [
        (PIN_OUTCOMES, "told_retries p = record nothing_told { pin_retries = Some p.retries;", "told_retries p = record nothing_told { pin_retries = Some 8;")]),
    ("pin_any", "any PIN is right", [(PIN_STEPS, "      Ok (bytes_eq hash t.pin))\n", "      Ok true)\n"), (PIN_STEPS, "Bool, false,", "Bool, true, false,")]),
    ("pin_part", "the first half of a PIN's hash is enough", [
        (PIN_STEPS, "      Ok (bytes_eq hash t.pin))\n", "      Ok (bytes_eq (take 8 hash) (take 8 t.pin)))\n"),
        (PIN_STEPS, "use Rattle.std.specs.Prelude.{◌==◌,", "use Rattle.std.specs.Prelude.{take, ◌==◌,")]),
    ("pin_any_size", "an encrypted hash of a PIN has any size", [(PIN_STEPS, "if length t.pin_hash == sealed_size t.protocol 16\n", "if true\n"),
        (PIN_STEPS, "Bool, false,", "Bool, true, false,")]),
    ("pin_other_secret", "what is encrypted is decrypted by the key that authenticates", [
        (PIN_HOST, "decrypted es protocol s bytes = answer es (decryption protocol s.aes bytes)", "decrypted es protocol s bytes = answer es (decryption protocol s.hmac bytes)")]),
    ("pin_any_point", "a point of any curve, for any algorithm", [
        (PIN_STEPS, "is_agreement_key k = (is_pos 2 k.kty && is_negsuc 24 k.alg && is_pos 1 k.crv) && (length k.x == 32 && length k.y == 32)",
            "is_agreement_key k = length k.x == 32 && length k.y == 32")]),
    ("pin_any_length", "a new PIN has any length", [
        ("key_pin/specs/Pins.antt", "is_allowed pin = nat_le 4 (code_points pin) && nat_le (length pin) 63", "is_allowed pin = nat_le (length pin) 63")]),
    ("pin_set_unauthenticated", "a first PIN is set though its pinUvAuthParam is of no message", [
        (PIN_STEPS, "authentic ← verified es protocol shared.hmac new_pin param\n", "authentic ← verified es protocol shared.hmac [] param\n"),
        (PIN_STEPS, "ℤ, pos, negsuc, List,", "ℤ, pos, negsuc, List, [],"),
        ("key_pin/proofs/Free.antt", "(verified es protocol shared.hmac new_pin param)", "(verified es protocol shared.hmac [] param)"),
        ("key_pin/proofs/Free.antt", "ℕ, List, ◌++◌,", "ℕ, List, [], ◌++◌,"),
        ("key_pin/proofs/Asked.antt", "(verified_asks protocol shared.hmac new_pin param)", "(verified_asks protocol shared.hmac [] param)"),
        ("key_pin/proofs/Asked.antt", "ℕ, List,", "ℕ, List, [],")]),
    ("pin_change_unauthenticated", "a PIN is changed though its pinUvAuthParam is not of pinHashEnc", [
        (PIN_STEPS, "authentic ← verified es protocol shared.hmac (new_pin ++ pin_hash) param\n", "authentic ← verified es protocol shared.hmac new_pin param\n"),
        ("key_pin/proofs/Free.antt", "(verified es protocol shared.hmac (new_pin ++ pin_hash) param)", "(verified es protocol shared.hmac new_pin param)"),
        ("key_pin/proofs/Asked.antt", "(verified_asks protocol shared.hmac (new_pin ++ pin_hash) param)", "(verified_asks protocol shared.hmac new_pin param)")]),
    ("pin_token_for_all", "a token is for each rp id, though one was asked for", [
        (PIN_STEPS, "Ok (begun, record { permissions = permissions; rp_id = Some rp_id })", "Ok (begun, record { permissions = permissions; rp_id = None })")]),
    ("pin_permissions_any", "any permission may be asked for", [
        (PIN_STEPS, "allowed_permissions n = if n == 0 then Err (refused 0x02) else if nat_lt 3 n then Err (refused 0x40) else Ok tt",
            "allowed_permissions n = if n == 0 then Err (refused 0x02) else Ok tt")]),
    ("pin_same_pair", "after a wrong PIN the key pair is the same", [
        (PIN_OUTCOMES, "done mismatch s = record s { mismatches = one_more s.mismatches; pair = None }", "done mismatch s = record s { mismatches = one_more s.mismatches }"),
        (PIN_SOUND, "Sound (record s { mismatches = one_more s.mismatches; pair = None; counted = false })", "Sound (record s { mismatches = one_more s.mismatches; counted = false })")]),
    ("pin_not_blocked", "wrong PINs in a row are not counted", [
        (PIN_OUTCOMES, "one_more n = if nat_lt n 3 then n + 1 else 3", "one_more n = if nat_lt n 3 then n else 3"),
        (PIN_SOUND, "cond b (n + 1) 3 ≤ 3", "cond b n 3 ≤ 3"),
        ("key_pin/proofs/Guessed.antt", "ltb n 3 ≡ b → n ≤ cond b (n + 1) 3)", "ltb n 3 ≡ b → n ≤ cond b n 3)")]),
    ("pin_refilled", "a power cycle gives all retries back while one is left", [
        (PIN_STATE, "powered_up s = record { pin = s.pin; retries = s.retries; mismatches = 0;", "powered_up s = record { pin = s.pin; retries = 8 - 8 * (1 - s.retries); mismatches = 0;"),
        (PIN_STATE, "use Rattle.std.specs.Prelude.{◌-◌,", "use Rattle.std.specs.Prelude.{◌*◌, ◌-◌,"),
        (PIN_SOUND, "next_sound power_up s h = record { retries = h.retries; mismatches = omega arith; counted = λ wrong. absurd cc; pin = h.pin; unset",
            "next_sound power_up s h = record { retries = omega arith; mismatches = omega arith; counted = λ wrong. absurd cc; pin = refilled s.pin s.retries h.pin; unset"),
        (PIN_SOUND, "-- ---- each call\n", """refilled : (o : Option (List ℕ)) (n : ℕ) → FitsPin o n → FitsPin o (8 - 8 * (1 - n))
refilled None n h = omega (arith, h)
refilled (Some x) n h = (h.0, omega arith)

"""),
        (PIN_SOUND, "◌+◌, ◌-◌, ℕ,", "◌+◌, ◌-◌, ◌*◌, ℕ,"),
        (PIN_LAWS, "call_used_up power_up s kept e c stays = (e, refl, refl)", "call_used_up power_up s kept e c stays = (omega (arith, e), refl, refl)"),
        (PIN_LAWS, "kept_of pin retries = record { pin = pin; retries = retries;", "kept_of pin retries = record { pin = pin; retries = 8 - 8 * (1 - retries);"),
        (PIN_LAWS, "use Rattle.std.proofs.Common.{◌+◌, ◌-◌,", "use Rattle.std.proofs.Common.{◌+◌, ◌-◌, ◌*◌,")]),
    ("pin_never_told_blocked", "that three PINs in a row were wrong is not told", [
        (PIN_OUTCOMES, "power_cycle = Some (nat_le 3 p.mismatches) }", "power_cycle = Some false }"),
        (PIN_OUTCOMES, "Option, Some, None, option_map, pos,", "Option, Some, None, false, option_map, pos,")]),
]
