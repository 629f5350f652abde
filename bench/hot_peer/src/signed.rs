//! Texts signed by the test key of the platform ALPH (RFC 7515, HS256).
use base64::{decode_config, encode_config, encode_config_buf, URL_SAFE_NO_PAD};
use hmac::{Hmac, Mac};
use serde::Deserialize;
use sha2::{Digest, Sha256};

#[derive(Deserialize)]
struct Header {
    alg: String,
    kid: String,
}

fn mac(input: &[u8]) -> Hmac<Sha256> {
    let key = Sha256::digest(b"EBL-TEST-KEY-ALPH");
    let mut mac = Hmac::<Sha256>::new_from_slice(&key).unwrap();
    mac.update(input);
    mac
}

/// The signed text of a payload.
pub fn text(payload: &[u8]) -> String {
    let mut text = encode_config(br#"{"alg":"HS256","kid":"ALPH"}"#, URL_SAFE_NO_PAD);
    text.push('.');
    encode_config_buf(payload, URL_SAFE_NO_PAD, &mut text);
    let signature = mac(text.as_bytes()).finalize().into_bytes();
    text.push('.');
    encode_config_buf(signature, URL_SAFE_NO_PAD, &mut text);
    text
}

/// The payload of a signed text, where the signature is right.
pub fn payload(text: &[u8]) -> Option<Vec<u8>> {
    let text = std::str::from_utf8(text).ok()?;
    let (input, signature) = text.rsplit_once('.')?;
    let (header, payload) = input.split_once('.')?;
    let header: Header = serde_json::from_slice(&decode_config(header, URL_SAFE_NO_PAD).ok()?).ok()?;
    if header.alg != "HS256" || header.kid != "ALPH" {
        return None;
    }
    mac(input.as_bytes()).verify_slice(&decode_config(signature, URL_SAFE_NO_PAD).ok()?).ok()?;
    decode_config(payload, URL_SAFE_NO_PAD).ok()
}
