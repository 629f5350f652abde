//! What `library_bench call` does, by the usual Rust crates: one call again and again, over what a file holds.
//!
//! It tests less: limits of lengths and the order of refusals are left out.
mod forms;
mod signed;

use forms::{entry_of, manifest_of, Body, Response};
use serde_json::Value;
use sha2::{Digest, Sha256};
use std::hint::black_box;

fn often(rounds: u32, mut call: impl FnMut()) {
    for _ in 0..rounds {
        call();
    }
}

fn json(bytes: &[u8]) -> Value {
    serde_json::from_slice(bytes).unwrap()
}

fn main() {
    let words: Vec<String> = std::env::args().skip(1).collect();
    let bytes = std::fs::read(&words[1]).unwrap();
    let bytes = &bytes[..];
    let rounds = words[2].parse().unwrap();
    match words[0].as_str() {
        "checksum" => often(rounds, || {
            black_box(Sha256::digest(black_box(bytes)));
        }),
        "read" => often(rounds, || drop(black_box(json(black_box(bytes))))),
        "write" => {
            let value = json(bytes);
            often(rounds, || drop(black_box(serde_json::to_vec(black_box(&value)).unwrap())));
        }
        "entry_decode" => {
            let value = json(bytes);
            often(rounds, || drop(black_box(entry_of(black_box(&value)).unwrap())));
        }
        "entry_encode" => {
            let entry = entry_of(&json(bytes)).unwrap();
            often(rounds, || drop(black_box(serde_json::to_value(black_box(&entry)).unwrap())));
        }
        "manifest_decode" => {
            let value = json(bytes);
            often(rounds, || drop(black_box(manifest_of(black_box(&value)).unwrap())));
        }
        "body_read" => often(rounds, || drop(black_box(serde_json::from_slice::<Body>(black_box(bytes)).unwrap()))),
        "body_write" => {
            let body: Body = serde_json::from_slice(bytes).unwrap();
            often(rounds, || drop(black_box(serde_json::to_vec(black_box(&body)).unwrap())));
        }
        "verify" => often(rounds, || drop(black_box(json(&signed::payload(black_box(bytes)).unwrap())))),
        "seal" => {
            let response = Response::received(bytes);
            often(rounds, || drop(black_box(signed::text(&serde_json::to_vec(black_box(&response)).unwrap()))));
        }
        "unseal" => often(rounds, || {
            let payload = signed::payload(black_box(bytes)).unwrap();
            drop(black_box(serde_json::from_slice::<Response>(&payload).unwrap()));
        }),
        _ => std::process::exit(2),
    }
}
