//! What browsers and RSA keys made (CEREMONIES, which python/tests/ceremonies.py prints), and malformed responses (MALFORMED): the answers of
//! Rattle, C, Python, JavaScript and Go.
#[path = "../examples/openssl/mod.rs"]
mod openssl;

use garvoeng::*;
use openssl::OpenSsl;
use std::cell::RefCell;
use std::collections::HashMap;

fn file(variable: &str) -> String {
    let path = std::env::var(variable).unwrap_or_else(|_| panic!("{variable} names no file: tests/packages/rust does"));
    std::fs::read_to_string(path).unwrap()
}

fn bytes_of(digits: &str) -> Vec<u8> {
    (0..digits.len() / 2).map(|at| u8::from_str_radix(&digits[2 * at..2 * at + 2], 16).unwrap()).collect()
}

/// A word: bytes after `=`, or none.
fn word(text: &str) -> Option<Vec<u8>> {
    text.strip_prefix('=').map(bytes_of)
}

/// A verifier that answers so, and keeps what it was asked.
struct Says(bool, RefCell<Vec<(Key, Vec<u8>, Vec<u8>)>>);

impl Verifier for Says {
    fn is_valid(&self, key: &Key, message: &[u8], signature: &[u8]) -> bool {
        self.1.borrow_mut().push((key.clone(), message.to_vec(), signature.to_vec()));
        self.0
    }
}

fn saying(answer: bool) -> Says {
    Says(answer, RefCell::default())
}

#[test]
fn ceremonies() {
    let text = file("CEREMONIES");
    let mut lines = text.lines().map(|line| line.split(' ').collect::<Vec<_>>());
    let party = lines.next().unwrap();
    let text_of = |at: usize| String::from_utf8(word(party[at]).unwrap()).unwrap();
    let mut site = RelyingParty::new(&text_of(1), &[&text_of(2)]);
    site.profile = Profile::Open;
    let mut credential: Option<Credential> = None;
    let (mut registrations, mut sign_ins) = (0, 0);
    for line in lines {
        let words: Vec<_> = line[1..].iter().map(|text| word(text)).collect();
        let part = |at: usize| words[at].clone().unwrap();
        if line[0] == "registration" {
            let algorithms = [Algorithm::Es256, Algorithm::EdDsa, Algorithm::Rs256];
            let session = RegistrationSession {
                challenge: part(2).try_into().unwrap(),
                user: part(3),
                user_verification: words[0].is_some(),
                algorithms: algorithms.into_iter().filter(|one| part(1).contains(&((-(*one as i32)) as u8))).collect(),
                conditional: false,
                attestation: true,
            };
            let (raw_id, object, client_data) = (part(4), part(5), part(6));
            let response = RegistrationResponse { raw_id: &raw_id, object: &object, client_data: &client_data };
            let judged = |is_free, is_full, verifier: &Says| site.verify_registration(Some(&session), &response, is_free, is_full, verifier);
            let made = site.verify_registration(Some(&session), &response, true, false, &OpenSsl).unwrap();
            assert_eq!(made.credential.id, raw_id);
            let is_attested = words[7].is_some();
            assert_eq!(made.format == Format::PackedSelf, is_attested);
            assert_eq!(judged(true, false, &saying(false)).err().map(|why| why.number), is_attested.then_some(13));
            assert_eq!(judged(false, false, &saying(true)).unwrap_err().number, 15);
            assert_eq!(judged(true, true, &saying(true)).unwrap_err().number, 16);
            assert_eq!(site.verify_registration(None, &response, true, false, &OpenSsl).unwrap_err().number, 1);
            let cose = key_to_cose(&made.credential.key).unwrap();
            assert_eq!(key_from_cose(&cose), Some(made.credential.key.clone()));
            assert_eq!(key_from_cose(&cose[1..]), None);
            credential = Some(made.credential);
            registrations += 1;
        } else {
            let before = credential.take().unwrap();
            let session = SignInSession {
                challenge: part(1).try_into().unwrap(),
                user: words[2].clone(),
                allow: words[3].clone().into_iter().collect(),
                user_verification: words[0].is_some(),
            };
            let (auth_data, signature, client_data) = (part(5), part(6), part(7));
            let response = AssertionResponse {
                credential: &before.id,
                user: words[4].as_deref(),
                auth_data: &auth_data,
                signature: &signature,
                client_data: &client_data,
            };
            let judged = |found, verifier: &Says| site.verify_assertion(Some(&session), found, &response, verifier).unwrap_err().number;
            let none = saying(false);
            assert_eq!(judged(Some(&before), &none), 14);
            let (key, message, told) = none.1.borrow()[0].clone();
            assert!(key == before.key && message.starts_with(&auth_data) && told == signature);
            let mut other = before.clone();
            other.retired = true;
            assert_eq!(judged(Some(&other), &saying(true)), 3);
            assert_eq!(judged(None, &saying(true)), 3);
            assert_eq!(site.verify_assertion(None, Some(&before), &response, &OpenSsl).unwrap_err().number, 1);
            let mut damaged = before.clone();
            damaged.key.x.pop();
            assert_eq!(judged(Some(&damaged), &saying(true)), 105);
            let made = site.verify_assertion(Some(&session), Some(&before), &response, &OpenSsl).unwrap();
            assert_eq!(site.verify_assertion(Some(&session), Some(&made.credential), &response, &OpenSsl).err().map(|why| why.number), (made.credential.sign_count > 0).then_some(15));
            credential = Some(made.credential);
            sign_ins += 1;
        }
    }
    assert!(registrations >= 40 && sign_ins >= 80);
}

/// What words stand for: `11*32` is 32 times 11.
fn repeated(words: &str) -> Vec<String> {
    let count = |word: &str| word.split_once('*').map_or((word.to_string(), 1), |(one, times)| (one.to_string(), times.parse().unwrap()));
    words.split_whitespace().map(count).flat_map(|(word, times)| vec![word; times]).collect()
}

type Parts = HashMap<String, Vec<u8>>;

/// One signature is valid, of one message.
struct One<'a>(&'a Parts);

impl Verifier for One<'_> {
    fn is_valid(&self, key: &Key, message: &[u8], signature: &[u8]) -> bool {
        key.algorithm == Algorithm::Es256 && key.x == [0x11; 32] && key.y == [0x33; 32] && message == self.0["message"] && signature == self.0["verified"]
    }
}

/// The number of the step that refuses the response, 0 of none.
fn step(kind: &str, parts: &Parts, accepted: &Parts) -> u32 {
    let mut site = RelyingParty::new("abc", &["https://abc"]);
    site.profile = Profile::Strict;
    let challenge = challenge(1, &[0; 24]);
    let user = vec![1];
    if kind == "sign-in" {
        let key = Key { algorithm: Algorithm::Es256, x: vec![0x11; 32], y: vec![0x33; 32] };
        let stored = Credential { id: vec![10], user: user.clone(), key, sign_count: 0, eligible: None, retired: false };
        let session = SignInSession { challenge, user: Some(user), allow: Vec::new(), user_verification: false };
        let response = AssertionResponse {
            credential: &parts["credential"],
            user: parts.get("user").map(Vec::as_slice),
            auth_data: &parts["auth_data"],
            signature: &parts["signature"],
            client_data: &parts["client_data"],
        };
        let found = (parts["credential"] == stored.id).then_some(&stored);
        site.verify_assertion(Some(&session), found, &response, &One(accepted)).map_or_else(|why| why.number, |_| 0)
    } else {
        let algorithms = vec![Algorithm::Es256, Algorithm::EdDsa];
        let session = RegistrationSession { challenge, user, user_verification: false, algorithms, conditional: false, attestation: true };
        let response = RegistrationResponse { raw_id: &[10, 11], object: &parts["object"], client_data: &parts["client_data"] };
        site.verify_registration(Some(&session), &response, true, false, &One(accepted)).map_or_else(|why| why.number, |_| 0)
    }
}

#[test]
fn malformed() {
    let text = file("MALFORMED");
    let text = text.split("r#\"").nth(1).unwrap().split("\"#").next().unwrap();
    let lines: Vec<Vec<&str>> = text.lines().map(|line| line.split('|').collect::<Vec<_>>()).filter(|line| line.len() == 4).collect();
    let mut tried = 0;
    for line in lines.iter().filter(|line| line[2] != "is") {
        let (kind, name, how, wanted) = (line[0], line[1], line[2], repeated(line[3]));
        let mut accepted = Parts::new();
        for part in lines.iter().filter(|part| part[0] == kind && part[2] == "is") {
            let value = part[3].strip_prefix('\'').map_or_else(|| repeated(part[3]).iter().flat_map(|digits| bytes_of(digits)).collect(), |text| text.as_bytes().to_vec());
            accepted.entry(part[1].to_string()).or_default().extend(value);
        }
        assert_eq!(step(kind, &accepted, &accepted), 0);
        assert_eq!(wanted.len(), accepted[name].len());
        for (at, wanted) in wanted.iter().enumerate() {
            let mut parts = accepted.clone();
            let value = parts.get_mut(name).unwrap();
            if how == "cut" {
                value.truncate(at);
            } else {
                value[at] ^= u8::from_str_radix(how, 16).unwrap();
            }
            assert_eq!(step(kind, &parts, &accepted).to_string(), *wanted, "{kind} {name} {how} {at}");
            tried += 1;
        }
    }
    assert_eq!(tried, 2103);
}

#[test]
fn texts() {
    assert_eq!(challenge_text(&challenge(7, &[9; 24])).len(), 43);
    assert_eq!(challenge(7, &[9; 24])[..9], [0, 0, 0, 0, 0, 0, 0, 7, 9]);
    let why = Refusal { is_registration: false, number: 14 };
    assert_eq!(why.to_string(), "W14: the signature is not valid");
    let key = Key { algorithm: Algorithm::Rs256, x: vec![1; 3], y: vec![2] };
    assert!(key_to_cose(&key).is_none() && key_from_cose(&[]).is_none());
    let number = |text: &str| text.split('.').map(|part| part.parse::<u32>().unwrap()).fold(0, |all, part| 100 * all + part);
    assert_eq!(version(), number(env!("CARGO_PKG_VERSION").split('-').next().unwrap()));
}
