//! A sign-in by hand-written Rust, as often as it is told: `speed-rust plain|sharp|reset COUNT`. `reset` does what makes the
//! next one possible, and no sign-in. The ceremony is that of `speed/main.rt.txt`: EdDSA, three packets, client data as
//! they are expected, one credential; the verifier compares with one listed signature.
mod cbor;
mod path;

use path::*;
use sha2::{Digest, Sha256};
use std::collections::HashMap;

const CHALLENGE: &str = "0000000000000001dba36bffa5cab0f922d087a3aeb179f9d4e745df40b323e1";
const CREDENTIAL: &str = "497697d615589770562aa4237fe0c2cf";
const KEY: &str = "a4010103272006215820ffc61d501214784351585e7daf5a683536df48e6fae2642fc2447f21f5c97fe3";
const AUTH_DATA: &str = "0c6ca0839c3a5683557833f618a2556665df2a088964787d53850b4ad4d3bedc0500000008";
const SIGNATURE: &str = "f8d3f3acd7f2f93c017589ed8b12897044e1641d1f41f9a6506e1b34ad77be55622f571b69412cce55ada163087e4cfba4ff19056d33b414f4c0cb1779914908";
const ORIGIN: &str = "https://login.example.com";
const RP_ID: &str = "login.example.com";

fn hex(digits: &str) -> Vec<u8> {
    (0..digits.len()).step_by(2).map(|at| u8::from_str_radix(&digits[at..at + 2], 16).unwrap()).collect()
}

/// The reply of the authenticator: its status, then its map.
fn message() -> Vec<u8> {
    hex(&format!("00a301a262696450{CREDENTIAL}64747970656a7075626c69632d6b6579025825{AUTH_DATA}035840{SIGNATURE}"))
}

/// The packets of a message on channel 1.
fn packets(message: &[u8]) -> Vec<[u8; 64]> {
    let mut made = vec![[0; 64]];
    made[0][..5].copy_from_slice(&[0, 0, 0, 1, 0x90]);
    made[0][5..7].copy_from_slice(&(message.len() as u16).to_be_bytes());
    made[0][7..].copy_from_slice(&message[..57]);
    for (seq, part) in message[57..].chunks(59).enumerate() {
        let mut packet = [0; 64];
        packet[..5].copy_from_slice(&[0, 0, 0, 1, seq as u8]);
        packet[5..5 + part.len()].copy_from_slice(part);
        made.push(packet);
    }
    made
}

fn site(user: &[u8]) -> Site {
    let row = Row { user: user.to_vec(), key: hex(KEY), count: 7 };
    let challenge = base64::encode_config(hex(CHALLENGE), base64::URL_SAFE_NO_PAD);
    let session = Session { open: true, user: Some(user.to_vec()), allow: vec![hex(CREDENTIAL)], uv: true, challenge };
    Site {
        rp_hash: Sha256::digest(RP_ID).into(),
        origins: vec![ORIGIN.into()],
        rows: HashMap::from([(hex(CREDENTIAL), row)]),
        sessions: HashMap::from([(1, session)]),
    }
}

fn main() {
    let words: Vec<String> = std::env::args().collect();
    let (act, count) = (words[1].as_str(), words[2].parse::<u64>().unwrap());
    let mut site = site(b"user");
    let challenge = site.sessions[&1].challenge.clone();
    let data = format!(r#"{{"type":"webauthn.get","challenge":"{challenge}","origin":"{ORIGIN}","crossOrigin":false}}"#).into_bytes();
    let message_signed = [hex(AUTH_DATA), Sha256::digest(&data).to_vec()].concat();
    let scheme = Listed { key: hex(KEY), message: message_signed, sig: hex(SIGNATURE) };
    let (packets, id, mut room) = (packets(&message()), hex(CREDENTIAL), Vec::with_capacity(7609));
    let mut sum = 0;
    for _ in 0..count {
        site.sessions.get_mut(&1).unwrap().open = true;
        site.rows.get_mut(&id).unwrap().count = 7;
        sum += match act {
            "plain" => sign_in_plain(&mut site, &scheme, 1, 1, &data, &packets).unwrap().0,
            "sharp" => sign_in_sharp(&mut site, &scheme, 1, 1, &data, &packets, &mut room).unwrap().0,
            "reset" => 1,
            _ => panic!("plain, sharp or reset"),
        } as u64;
    }
    println!("{}", sum / count.max(1));
}
