//! The path by hand: packets, the reply, client data, the site's steps, twice: as one writes it at first with the usual crates
//! (plain), and without copies (sharp).
use crate::cbor;
use serde::Deserialize;
use sha2::{Digest, Sha256};
use std::borrow::Cow;
use std::collections::HashMap;

// ---- packets ----------------------------------------------------------------------------------
#[derive(Debug, PartialEq)]
pub enum Fault { Incomplete, Dead(usize), DeviceError(u8), Status(u8), NotCanonical, Shape, W(u8) }

/// Payload of the CBOR message on `cid`, and how many packets were looked at.
pub fn collect(cid: u32, packets: &[[u8; 64]], buf: &mut Vec<u8>) -> Result<usize, Fault> {
    buf.clear();
    let (mut want, mut seq, mut error) = (None, 0u8, false);
    for (i, p) in packets.iter().enumerate() {
        if u32::from_be_bytes([p[0], p[1], p[2], p[3]]) != cid { continue }
        match (p[4] & 0x80 != 0, want) {
            (true, None) => {
                let len = u16::from_be_bytes([p[5], p[6]]) as usize;
                match p[4] & 0x7f {
                    0x3b if len == 1 && (p[7] == 1 || p[7] == 2) => continue,
                    0x10 if len <= 7609 => {}
                    0x3f if len == 1 => error = true,
                    _ => return Err(Fault::Dead(i)),
                }
                buf.extend_from_slice(&p[7..7 + len.min(57)]);
                want = Some(len);
            }
            (false, Some(len)) if p[4] == seq => {
                buf.extend_from_slice(&p[5..5 + (len - buf.len()).min(59)]);
                seq += 1;
            }
            _ => return Err(Fault::Dead(i)),
        }
        if Some(buf.len()) == want {
            return if error { Err(Fault::DeviceError(buf[0])) } else { Ok(i + 1) };
        }
    }
    Err(Fault::Incomplete)
}

// ---- reply ------------------------------------------------------------------------------------
pub struct Reply { pub id: Vec<u8>, pub auth_data: Vec<u8>, pub sig: Vec<u8>, pub user: Option<Vec<u8>> }

pub fn reply_plain(msg: &[u8]) -> Result<Reply, Fault> {
    use serde_cbor::Value as V;
    match msg.first() { None => return Err(Fault::Incomplete), Some(0) => {} Some(s) => return Err(Fault::Status(*s)) }
    let v: V = serde_cbor::from_slice(&msg[1..]).map_err(|_| Fault::NotCanonical)?;
    if serde_cbor::to_vec(&v).map_err(|_| Fault::NotCanonical)? != msg[1..] { return Err(Fault::NotCanonical) }
    let V::Map(mut m) = v else { return Err(Fault::Shape) };
    let mut bytes = |k: i128| match m.remove(&V::Integer(k)) { Some(V::Bytes(b)) => Ok(Some(b)), None => Ok(None), _ => Err(Fault::Shape) };
    let (auth_data, sig) = (bytes(2)?.ok_or(Fault::Shape)?, bytes(3)?.ok_or(Fault::Shape)?);
    let Some(V::Map(mut c)) = m.remove(&V::Integer(1)) else { return Err(Fault::Shape) };
    let Some(V::Bytes(id)) = c.remove(&V::Text("id".into())) else { return Err(Fault::Shape) };
    if c.remove(&V::Text("type".into())) != Some(V::Text("public-key".into())) || !c.is_empty() || !(1..=64).contains(&id.len()) { return Err(Fault::Shape) }
    let user = match m.remove(&V::Integer(4)) {
        None => None,
        Some(V::Map(mut u)) => match u.remove(&V::Text("id".into())) {
            Some(V::Bytes(b)) if u.is_empty() && (1..=64).contains(&b.len()) => Some(b),
            _ => return Err(Fault::Shape),
        },
        _ => return Err(Fault::Shape),
    };
    if let Some(n) = m.remove(&V::Integer(5)) { if !matches!(n, V::Integer(n) if n >= 2) { return Err(Fault::Shape) } }
    if !m.is_empty() { return Err(Fault::Shape) }
    Ok(Reply { id, auth_data, sig, user })
}

pub struct View<'a> { pub id: &'a [u8], pub auth_data: &'a [u8], pub sig: &'a [u8], pub user: Option<&'a [u8]> }

pub fn reply_sharp(msg: &[u8]) -> Result<View<'_>, Fault> {
    match msg.first() { None => return Err(Fault::Incomplete), Some(0) => {} Some(s) => return Err(Fault::Status(*s)) }
    if !cbor::check(&msg[1..]) { return Err(Fault::NotCanonical) }
    (|| {
        let mut r = cbor::Reader::new(&msg[1..]);
        let (5, n @ 3..=5) = r.head()? else { return None };
        if r.head()? != (0, 1) || r.head()? != (5, 2) || r.text()? != "id" { return None }
        let id = r.bytes()?;
        if r.text()? != "type" || r.text()? != "public-key" || r.head()? != (0, 2) { return None }
        let auth_data = r.bytes()?;
        if r.head()? != (0, 3) { return None }
        let sig = r.bytes()?;
        let (mut user, mut left) = (None, n - 3);
        let mut key = if left > 0 { r.head()? } else { (0, 0) };
        if key == (0, 4) {
            if r.head()? != (5, 1) || r.text()? != "id" { return None }
            user = Some(r.bytes()?);
            left -= 1;
            if left > 0 { key = r.head()? }
        }
        if left > 0 { if key != (0, 5) || !matches!(r.head()?, (0, 2..)) { return None } left -= 1 }
        (left == 0 && (1..=64).contains(&id.len()) && user.map_or(true, |u| (1..=64).contains(&u.len()))).then_some(View { id, auth_data, sig, user })
    })().ok_or(Fault::Shape)
}

// ---- site -------------------------------------------------------------------------------------
pub struct Row { pub user: Vec<u8>, pub key: Vec<u8>, pub count: u32 }
pub struct Session { pub open: bool, pub user: Option<Vec<u8>>, pub allow: Vec<Vec<u8>>, pub uv: bool, pub challenge: String }
pub struct Site { pub rp_hash: [u8; 32], pub origins: Vec<String>, pub rows: HashMap<Vec<u8>, Row>, pub sessions: HashMap<u64, Session> }

/// The stub: true of one listed signature.
pub struct Listed { pub key: Vec<u8>, pub message: Vec<u8>, pub sig: Vec<u8> }
impl Listed {
    pub fn verify(&self, key: &[u8], parts: [&[u8]; 2], sig: &[u8]) -> bool {
        let n = parts[0].len();
        self.key == key && self.sig == sig && self.message.len() == n + parts[1].len() && &self.message[..n] == parts[0] && &self.message[n..] == parts[1]
    }
}

#[derive(Deserialize)]
pub struct Client<'a> {
    #[serde(rename = "type", borrow)] pub kind: Cow<'a, str>,
    #[serde(borrow)] pub challenge: Cow<'a, str>,
    #[serde(borrow)] pub origin: Cow<'a, str>,
    #[serde(rename = "tokenBinding", default, deserialize_with = "present")] pub binding: Option<serde_json::Value>,
}
/// `Some` also of null, so that null isn't taken for absent.
fn present<'de, D: serde::Deserializer<'de>>(d: D) -> Result<Option<serde_json::Value>, D::Error> { serde_json::Value::deserialize(d).map(Some) }

pub fn client_plain(s: &Session, origins: &[String], cd: &[u8]) -> Result<(), Fault> {
    let v: serde_json::Value = serde_json::from_slice(cd).map_err(|_| Fault::W(5))?;
    let (Some(t), Some(c), Some(o)) = (v["type"].as_str(), v["challenge"].as_str(), v["origin"].as_str()) else { return Err(Fault::W(5)) };
    if t != "webauthn.get" { return Err(Fault::W(6)) }
    if c != s.challenge { return Err(Fault::W(7)) }
    if !origins.iter().any(|x| x == o) { return Err(Fault::W(8)) }
    if v.get("tokenBinding").map_or(false, |b| b["status"] != "supported") { return Err(Fault::W(9)) }
    Ok(())
}

pub fn client_sharp(s: &Session, origins: &[String], cd: &[u8]) -> Result<(), Fault> {
    let v: Client = serde_json::from_str(std::str::from_utf8(cd).map_err(|_| Fault::W(5))?).map_err(|_| Fault::W(5))?;
    if v.kind != "webauthn.get" { return Err(Fault::W(6)) }
    if v.challenge != s.challenge.as_str() { return Err(Fault::W(7)) }
    if !origins.iter().any(|x| *x == v.origin) { return Err(Fault::W(8)) }
    if v.binding.map_or(false, |b| b["status"] != "supported") { return Err(Fault::W(9)) }
    Ok(())
}

impl Site {
    pub fn finish(&mut self, scheme: &Listed, session: u64, r: View, cd: &[u8], client: fn(&Session, &[String], &[u8]) -> Result<(), Fault>) -> Result<u32, Fault> {
        let s = self.sessions.get_mut(&session).filter(|s| s.open).ok_or(Fault::W(1))?;
        if !s.allow.is_empty() && !s.allow.iter().any(|a| a == r.id) { return Err(Fault::W(2)) }
        let row = self.rows.get_mut(r.id).ok_or(Fault::W(3))?;
        if s.user.as_ref().map_or(false, |u| *u != row.user) || r.user.map_or(s.user.is_none(), |u| u != row.user) { return Err(Fault::W(4)) }
        client(s, &self.origins, cd)?;
        let ad = r.auth_data;
        if ad.len() != 37 || ad[32] & 0xc0 != 0 { return Err(Fault::W(10)) }
        if ad[..32] != self.rp_hash { return Err(Fault::W(11)) }
        if ad[32] & 1 == 0 { return Err(Fault::W(12)) }
        if s.uv && ad[32] & 4 == 0 { return Err(Fault::W(13)) }
        if !scheme.verify(&row.key, [ad, &Sha256::digest(cd)], r.sig) { return Err(Fault::W(14)) }
        let count = u32::from_be_bytes([ad[33], ad[34], ad[35], ad[36]]);
        if (count != 0 || row.count != 0) && count <= row.count { return Err(Fault::W(15)) }
        row.count = count;
        s.open = false;
        Ok(count)
    }
}

pub fn sign_in_plain(site: &mut Site, scheme: &Listed, session: u64, cid: u32, cd: &[u8], packets: &[[u8; 64]]) -> Result<(u32, usize), Fault> {
    let mut buf = Vec::new();
    let used = collect(cid, packets, &mut buf)?;
    let r = reply_plain(&buf)?;
    let v = View { id: &r.id, auth_data: &r.auth_data, sig: &r.sig, user: r.user.as_deref() };
    Ok((site.finish(scheme, session, v, cd, client_plain)?, used))
}

pub fn sign_in_sharp(site: &mut Site, scheme: &Listed, session: u64, cid: u32, cd: &[u8], packets: &[[u8; 64]], buf: &mut Vec<u8>) -> Result<(u32, usize), Fault> {
    let used = collect(cid, packets, buf)?;
    let v = reply_sharp(buf)?;
    Ok((site.finish(scheme, session, v, cd, client_sharp)?, used))
}

