//! A sign-in that Chromium made, and the same with another signature: cargo run --example sign_in c/hosts/recorded.txt
mod openssl;

use garvoeng::{Algorithm, AssertionResponse, Credential, Key, RelyingParty, SignInSession};

fn main() {
    let path = std::env::args().nth(1).expect("the path of recorded.txt");
    let recorded = std::fs::read_to_string(path).expect("recorded.txt");
    let part = |name: &str| -> Vec<u8> {
        let line = recorded.lines().find_map(|line| line.strip_prefix(name)?.strip_prefix(' ')).expect("a line");
        (0..line.len() / 2).map(|at| u8::from_str_radix(&line[2 * at..2 * at + 2], 16).expect("hexadecimal")).collect()
    };
    let site = RelyingParty::new("localhost", &["http://localhost:8764"]);
    let session = SignInSession {
        challenge: part("challenge").try_into().expect("32 bytes"),
        user: None,
        allow: Vec::new(),
        user_verification: false,
    };
    let credential = Credential {
        id: part("id"),
        user: part("user"),
        key: Key { algorithm: Algorithm::Es256, x: part("x"), y: part("y") },
        sign_count: 1,
        eligible: Some(false),
        retired: false,
    };
    let (auth_data, client_data) = (part("auth_data"), part("client_data"));
    let mut signature = part("signature");
    for change in [0, 1] {
        *signature.last_mut().expect("a byte") ^= change;
        let response = AssertionResponse {
            credential: &credential.id,
            user: Some(&credential.user),
            auth_data: &auth_data,
            signature: &signature,
            client_data: &client_data,
        };
        match site.verify_assertion(Some(&session), Some(&credential), &response, &openssl::OpenSsl) {
            Ok(signed_in) => println!("accepted, counter {}", signed_in.credential.sign_count),
            Err(refusal) => println!("{refusal}"),
        }
    }
}
