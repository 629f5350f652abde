//! A session server in stock Rust, by httparse, http and serde_json: what `http_trial session` is measured beside. It
//! reads one session from standard input, and writes the replies to standard output.
use http::StatusCode;
use std::collections::BTreeMap;
use std::io::{self, Read, Write};

const MOST_HEAD: usize = 16_384;
const MOST_BODY: u64 = 4_194_304;

type Checksum = [u8; 32];
type Reference = [u8; 16];

enum Route {
    Start,
    Document(Reference, Checksum),
    Finish(Reference),
    Validation,
    Command,
    Bill(Checksum),
}

impl Route {
    fn method(&self) -> &'static str {
        match self {
            Route::Start | Route::Validation | Route::Command => "POST",
            Route::Document(..) | Route::Finish(_) => "PUT",
            Route::Bill(_) => "GET",
        }
    }

    fn states_length(&self) -> bool {
        !matches!(self, Route::Finish(_) | Route::Bill(_))
    }
}

#[allow(dead_code)]
enum Request {
    Start(Vec<u8>),
    Put(Reference, Checksum, Vec<u8>),
    Finish(Reference),
    Command(String, serde_json::Value),
    Ask(Checksum),
}

/// Digits of hexadecimal, of lower case alone for a checksum.
fn digits<const N: usize>(text: &[u8], upper: bool) -> Option<[u8; N]> {
    if text.len() != 2 * N {
        return None;
    }
    let digit = |byte: u8| match byte {
        b'0'..=b'9' => Some(byte - b'0'),
        b'a'..=b'f' => Some(byte - b'a' + 10),
        b'A'..=b'F' if upper => Some(byte - b'A' + 10),
        _ => None,
    };
    let mut made = [0; N];
    for (place, pair) in text.chunks_exact(2).enumerate() {
        made[place] = digit(pair[0])? << 4 | digit(pair[1])?;
    }
    Some(made)
}

fn checksum(text: &str) -> Option<Checksum> {
    digits(text.as_bytes(), false)
}

fn reference(text: &str) -> Option<Reference> {
    let text = text.as_bytes();
    if text.len() == 32 {
        return digits(text, true);
    }
    if text.len() != 36 || [8, 13, 18, 23].iter().any(|&at| text[at] != b'-') {
        return None;
    }
    let mut bare = [0; 32];
    for (to, from) in bare.iter_mut().zip(text.iter().filter(|byte| **byte != b'-')) {
        *to = *from;
    }
    digits(&bare, true)
}

fn route(path: &str) -> Option<Route> {
    let mut parts = path.strip_prefix("/v3/")?.split('/');
    match (parts.next()?, parts.next(), parts.next(), parts.next(), parts.next()) {
        ("envelopes", None, ..) => Some(Route::Start),
        ("envelopes", Some(at), Some("finish-transfer"), None, _) => Some(Route::Finish(reference(at)?)),
        ("envelopes", Some(at), Some("additional-documents"), Some(of), None) => {
            Some(Route::Document(reference(at)?, checksum(of)?))
        }
        ("receiver-validation", None, ..) => Some(Route::Validation),
        ("holder-commands", None, ..) => Some(Route::Command),
        ("bills", Some(bill), None, ..) => Some(Route::Bill(checksum(bill)?)),
        _ => None,
    }
}

/// A whole head: how long it is, and what it asks for, or the status that refuses it.
enum Head {
    Short,
    Whole(usize, Result<(Route, usize, bool), StatusCode>),
}

fn head(buffer: &[u8]) -> Head {
    let mut headers = [httparse::EMPTY_HEADER; 64];
    let mut request = httparse::Request::new(&mut headers);
    match request.parse(buffer) {
        Ok(httparse::Status::Complete(length)) if length <= MOST_HEAD => Head::Whole(length, plan(&request)),
        Ok(httparse::Status::Partial) if buffer.len() < MOST_HEAD => Head::Short,
        _ => Head::Whole(0, Err(StatusCode::BAD_REQUEST)),
    }
}

fn plan(request: &httparse::Request) -> Result<(Route, usize, bool), StatusCode> {
    let fields = || request.headers.iter();
    if fields().any(|field| field.name.eq_ignore_ascii_case("transfer-encoding")) {
        return Err(StatusCode::NOT_IMPLEMENTED);
    }
    let route = request.path.and_then(route).ok_or(StatusCode::NOT_FOUND)?;
    if request.method != Some(route.method()) {
        return Err(StatusCode::METHOD_NOT_ALLOWED);
    }
    let keeps = request.version == Some(1)
        && !fields().any(|field| {
            field.name.eq_ignore_ascii_case("connection") && field.value.eq_ignore_ascii_case(b"close")
        });
    let mut lengths = fields().filter(|field| field.name.eq_ignore_ascii_case("content-length"));
    let Some(first) = lengths.next() else {
        return if route.states_length() { Err(StatusCode::LENGTH_REQUIRED) } else { Ok((route, 0, keeps)) };
    };
    let is_text = (1..=19).contains(&first.value.len()) && first.value.iter().all(u8::is_ascii_digit);
    if !is_text || lengths.any(|other| other.value != first.value) {
        return Err(StatusCode::BAD_REQUEST);
    }
    let text = std::str::from_utf8(first.value).map_err(|_| StatusCode::BAD_REQUEST)?;
    match text.parse::<u64>() {
        Ok(length) if length <= MOST_BODY => Ok((route, length as usize, keeps)),
        _ => Err(StatusCode::PAYLOAD_TOO_LARGE),
    }
}

fn text_of(value: &serde_json::Value, name: &str) -> Option<String> {
    value.get(name)?.as_str().map(str::to_owned)
}

fn asked(route: Route, body: &[u8]) -> Option<Request> {
    Some(match route {
        Route::Start => Request::Start(body.to_vec()),
        Route::Document(reference, checksum) => Request::Put(reference, checksum, body.to_vec()),
        Route::Finish(reference) => Request::Finish(reference),
        Route::Bill(bill) => Request::Ask(bill),
        Route::Validation | Route::Command => {
            let value: serde_json::Value = serde_json::from_slice(body).ok()?;
            Request::Command(text_of(&value, "party")?, value)
        }
    })
}

/// A bill that one party holds.
struct View {
    bill: Checksum,
    entries: u32,
    party: &'static str,
}

/// The desk: it shows the same bill, whatever it is asked.
fn take(request: Request) -> View {
    drop(request);
    View { bill: [0x44; 32], entries: 2, party: "BETA/IMPORT" }
}

fn hexadecimal(bytes: &[u8]) -> String {
    let mut text = String::with_capacity(2 * bytes.len());
    for byte in bytes {
        for digit in [byte >> 4, byte & 15] {
            text.push(b"0123456789abcdef"[digit as usize] as char);
        }
    }
    text
}

fn body_of(view: &View) -> Vec<u8> {
    let mut members: BTreeMap<&str, serde_json::Value> = BTreeMap::new();
    members.insert("bill", hexadecimal(&view.bill).into());
    members.insert("entries", view.entries.into());
    members.insert("holder", view.party.into());
    members.insert("place", "HELD".into());
    members.insert("possessor", view.party.into());
    members.insert("state", "LIVE".into());
    serde_json::to_vec(&members).expect("an object")
}

fn reply(status: StatusCode, body: &[u8], keeps: bool) -> Vec<u8> {
    let mut text = Vec::new();
    let phrase = status.canonical_reason().unwrap_or("");
    write!(text, "HTTP/1.1 {} {}\r\n", status.as_u16(), phrase).expect("memory");
    if !body.is_empty() {
        text.extend_from_slice(b"content-type: application/json\r\n");
    }
    write!(text, "content-length: {}\r\n", body.len()).expect("memory");
    if !keeps {
        text.extend_from_slice(b"connection: close\r\n");
    }
    text.extend_from_slice(b"\r\n");
    text.extend_from_slice(body);
    text
}

/// Reads more bytes behind those of the buffer; whether some came.
fn read_more(input: &mut impl Read, buffer: &mut Vec<u8>) -> io::Result<bool> {
    let mut piece = [0; 4096];
    let count = input.read(&mut piece)?;
    buffer.extend_from_slice(&piece[..count]);
    Ok(count > 0)
}

fn serve(input: &mut impl Read, output: &mut impl Write) -> io::Result<()> {
    let mut buffer = Vec::new();
    loop {
        let (length, plan) = match head(&buffer) {
            Head::Whole(length, plan) => (length, plan),
            Head::Short => {
                if !read_more(input, &mut buffer)? {
                    return if buffer.is_empty() { Ok(()) } else { Err(io::ErrorKind::UnexpectedEof.into()) };
                }
                continue;
            }
        };
        let (route, size, keeps) = match plan {
            Ok(plan) => plan,
            Err(status) => return output.write_all(&reply(status, b"", false)),
        };
        while buffer.len() < length + size {
            if !read_more(input, &mut buffer)? {
                return Err(io::ErrorKind::UnexpectedEof.into());
            }
        }
        let Some(request) = asked(route, &buffer[length..length + size]) else {
            return output.write_all(&reply(StatusCode::BAD_REQUEST, b"", false));
        };
        output.write_all(&reply(StatusCode::OK, &body_of(&take(request)), keeps))?;
        if !keeps {
            return Ok(());
        }
        buffer.drain(..length + size);
    }
}

fn main() -> io::Result<()> {
    // Standard input and output as they are, with no buffer between, as `http_trial session` has them.
    use std::os::fd::FromRawFd;
    let mut input = std::mem::ManuallyDrop::new(unsafe { std::fs::File::from_raw_fd(0) });
    let mut output = std::mem::ManuallyDrop::new(unsafe { std::fs::File::from_raw_fd(1) });
    serve(&mut *input, &mut *output)
}
