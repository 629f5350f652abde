//! What `ebl canon` does, by the usual Rust crates: reads JSON, and writes it with its members in order and its SHA-256
//! checksum.
//!
//! `serde_json` orders members by bytes, which for ASCII names is RFC 8785's order.
use serde_json::Value;
use sha2::{Digest, Sha256};
use std::io::{Read, Write};

fn main() {
    let mut text = Vec::new();
    std::io::stdin().read_to_end(&mut text).unwrap();
    let value: Value = serde_json::from_slice(&text).unwrap();
    let canonical = serde_json::to_vec(&value).unwrap();
    let digest = Sha256::digest(&canonical);
    let mut lines = canonical;
    lines.push(b'\n');
    for byte in digest {
        write!(lines, "{byte:02x}").unwrap();
    }
    lines.push(b'\n');
    std::io::stdout().write_all(&lines).unwrap();
}
