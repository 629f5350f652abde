//! Entries, manifests, bodies and answers, as the product's forms have them.
use serde::de::{Error, Visitor};
use serde::{Deserialize, Deserializer, Serialize, Serializer};
use serde_json::{Map, Value};
use sha2::{Digest, Sha256};
use std::fmt;

#[derive(Clone, Copy)]
pub struct Checksum([u8; 32]);

fn digit(byte: u8) -> Option<u8> {
    match byte {
        b'0'..=b'9' => Some(byte - b'0'),
        b'a'..=b'f' => Some(byte - b'a' + 10),
        _ => None,
    }
}

fn checksum_of(text: &str) -> Option<Checksum> {
    let text = text.as_bytes();
    if text.len() != 64 {
        return None;
    }
    let mut bytes = [0; 32];
    for (at, byte) in bytes.iter_mut().enumerate() {
        *byte = digit(text[2 * at])? << 4 | digit(text[2 * at + 1])?;
    }
    Some(Checksum(bytes))
}

impl<'de> Deserialize<'de> for Checksum {
    fn deserialize<D: Deserializer<'de>>(from: D) -> Result<Self, D::Error> {
        struct Digits;
        impl<'de> Visitor<'de> for Digits {
            type Value = Checksum;
            fn expecting(&self, out: &mut fmt::Formatter) -> fmt::Result {
                out.write_str("64 digits")
            }
            fn visit_str<E: Error>(self, text: &str) -> Result<Checksum, E> {
                checksum_of(text).ok_or_else(|| E::custom("no checksum"))
            }
        }
        from.deserialize_str(Digits)
    }
}

impl Serialize for Checksum {
    fn serialize<S: Serializer>(&self, to: S) -> Result<S::Ok, S::Error> {
        let mut text = String::with_capacity(64);
        for byte in self.0 {
            text.push(b"0123456789abcdef"[(byte >> 4) as usize] as char);
            text.push(b"0123456789abcdef"[(byte & 15) as usize] as char);
        }
        to.serialize_str(&text)
    }
}

#[derive(Clone, Copy)]
struct Party {
    platform: [u8; 4],
    code: [u8; 35],
    length: u8,
}

fn is_code(byte: &u8) -> bool {
    byte.is_ascii_uppercase() || byte.is_ascii_digit()
}

fn party_of(text: &str) -> Option<Party> {
    let text = text.as_bytes();
    if text.len() < 6 || text.len() > 40 || text[4] != b'/' || !text[..4].iter().all(is_code) {
        return None;
    }
    if !text[5..].iter().all(|byte| is_code(byte) || *byte == b'-' || *byte == b'_') {
        return None;
    }
    let mut party = Party { platform: [0; 4], code: [0; 35], length: (text.len() - 5) as u8 };
    party.platform.copy_from_slice(&text[..4]);
    party.code[..text.len() - 5].copy_from_slice(&text[5..]);
    Some(party)
}

impl Serialize for Party {
    fn serialize<S: Serializer>(&self, to: S) -> Result<S::Ok, S::Error> {
        let mut text = String::from_utf8(self.platform.to_vec()).unwrap();
        text.push('/');
        text.push_str(std::str::from_utf8(&self.code[..self.length as usize]).unwrap());
        to.serialize_str(&text)
    }
}

#[derive(Clone, Copy, Serialize)]
#[serde(rename_all = "UPPERCASE")]
enum Kind {
    Sign,
    Issue,
    Transfer,
    Endorse,
}

#[derive(Serialize)]
struct Transaction {
    actor: Party,
    kind: Kind,
    #[serde(skip_serializing_if = "Option::is_none")]
    recipient: Option<Party>,
    time: u64,
}

#[derive(Serialize)]
pub struct Entry {
    attempt: u32,
    bill: Checksum,
    platform: String,
    #[serde(skip_serializing_if = "Option::is_none")]
    previous: Option<Checksum>,
    transactions: Vec<Transaction>,
}

fn transaction_of(value: &Value) -> Option<Transaction> {
    let kind = match value.get("kind")?.as_str()? {
        "SIGN" => Kind::Sign,
        "ISSUE" => Kind::Issue,
        "TRANSFER" => Kind::Transfer,
        "ENDORSE" => Kind::Endorse,
        _ => return None,
    };
    let recipient = match value.get("recipient") {
        Some(text) => Some(party_of(text.as_str()?)?),
        None => None,
    };
    Some(Transaction {
        actor: party_of(value.get("actor")?.as_str()?)?,
        kind,
        recipient,
        time: value.get("time")?.as_u64()?,
    })
}

/// The entry that a value is.
pub fn entry_of(value: &Value) -> Option<Entry> {
    let platform = value.get("platform")?.as_str()?;
    let attempt = u32::try_from(value.get("attempt")?.as_u64()?).ok()?;
    let items = value.get("transactions")?.as_array()?;
    if platform.len() != 4 || !platform.as_bytes().iter().all(is_code) || attempt < 1 {
        return None;
    }
    if items.is_empty() || items.len() > 32 {
        return None;
    }
    let previous = match value.get("previous") {
        Some(text) => Some(checksum_of(text.as_str()?)?),
        None => None,
    };
    Some(Entry {
        attempt,
        bill: checksum_of(value.get("bill")?.as_str()?)?,
        platform: platform.to_string(),
        previous,
        transactions: items.iter().map(transaction_of).collect::<Option<_>>()?,
    })
}

#[allow(dead_code)]
struct Piece {
    checksum: Checksum,
    media: String,
    name: String,
    size: u32,
}

#[allow(dead_code)]
pub struct Manifest {
    bill: Checksum,
    last: Checksum,
    documents: Vec<Piece>,
}

fn plain_text(value: &Value, most: usize) -> Option<String> {
    let text = value.as_str()?;
    let is_plain = !text.chars().any(|c| c < ' ' || c == '\x7f');
    (is_plain && !text.is_empty() && text.len() <= most).then(|| text.to_string())
}

fn piece_of(value: &Value) -> Option<Piece> {
    Some(Piece {
        name: plain_text(value.get("name")?, 128)?,
        media: plain_text(value.get("media")?, 64)?,
        size: u32::try_from(value.get("size")?.as_u64()?).ok()?,
        checksum: checksum_of(value.get("checksum")?.as_str()?)?,
    })
}

/// The manifest that a value is.
pub fn manifest_of(value: &Value) -> Option<Manifest> {
    let documents = value.get("documents")?.as_array()?;
    Some(Manifest {
        bill: checksum_of(value.get("bill")?.as_str()?)?,
        last: checksum_of(value.get("last")?.as_str()?)?,
        documents: documents.iter().map(piece_of).collect::<Option<_>>()?,
    })
}

#[derive(Deserialize, Serialize)]
pub struct Body {
    chain: Vec<String>,
    document: Map<String, Value>,
    manifest: String,
}

#[derive(Deserialize, Serialize)]
#[serde(rename_all = "camelCase")]
pub struct Response {
    bill: Checksum,
    last: Checksum,
    missing: Vec<Checksum>,
    response_code: String,
    standing: bool,
}

impl Response {
    /// The answer that the bill was received, whose name is that of these bytes.
    pub fn received(bytes: &[u8]) -> Response {
        let name = Checksum(Sha256::digest(bytes).into());
        Response { bill: name, last: name, missing: Vec::new(), response_code: "RECE".to_string(), standing: true }
    }
}
