//! What `ebl drive` does with a good script, by the usual Rust crates: reads the lines, applies each event, and writes
//! its answer; then a line for each bill.
//!
//! A bad line ends it by a panic or by exit 3. Each answer is one write to standard output, as the product's.
use serde_json::{json, Value};
use sha2::{Digest, Sha256};
use std::collections::{BTreeSet, HashSet};
use std::io::{Read, Write};

struct Bill {
    is_live: bool,
    carrier: String,
    possessor: String,
    holder: String,
}

struct Platform {
    code: String,
    parties: HashSet<String>,
    carrier: String,
    bills: Vec<Bill>,
    names: BTreeSet<[u8; 32]>,
}

fn main() {
    let mut text = Vec::new();
    std::io::stdin().read_to_end(&mut text).unwrap();
    let text = text.strip_suffix(b"\n").unwrap_or(&text);
    let mut lines = text.split(|byte| *byte == b'\n');
    let mut platform = Platform::new(&serde_json::from_slice(lines.next().unwrap()).unwrap());
    let mut out = std::io::stdout().lock();
    for (at, line) in lines.enumerate() {
        let Ok(event) = serde_json::from_slice(line) else {
            eprintln!("line {}", at + 2);
            std::process::exit(3);
        };
        put(&mut out, &platform.answer(at + 1, &event));
    }
    for (at, bill) in platform.bills.iter().enumerate() {
        put(&mut out, &platform.bill_line(at + 1, bill));
    }
}

fn put(out: &mut impl Write, value: &Value) {
    let mut line = serde_json::to_vec(value).unwrap();
    line.push(b'\n');
    out.write_all(&line).unwrap();
    out.flush().unwrap();
}

fn text(value: &Value) -> String {
    value.as_str().unwrap().to_string()
}

impl Platform {
    fn new(line: &Value) -> Self {
        let roster = &line["roster"];
        Platform {
            code: text(&roster["platforms"][0]),
            parties: roster["parties"].as_array().unwrap().iter().map(text).collect(),
            carrier: text(&roster["carriers"][0]["party"]),
            bills: Vec::new(),
            names: BTreeSet::new(),
        }
    }

    fn answer(&mut self, n: usize, event: &Value) -> Value {
        let party = text(&event["party"]);
        assert!(event["at"].as_str() == Some(&self.code) && self.parties.contains(&party));
        let deed = event["do"].as_str().unwrap();
        if deed == "SIGN" {
            return self.sign(n, party, &event["document"]);
        }
        let recipient = event["recipient"].as_str().map(str::to_string);
        assert!(recipient.iter().all(|party| self.parties.contains(party)));
        let number = event["bill"].as_u64().unwrap() as usize;
        match self.bills.get_mut(number - 1) {
            None => json!({"event": n, "reply": "NO_BILL", "sent": []}),
            Some(bill) => match bill.act(deed, &party, recipient) {
                Ok(()) => done(n, number, bill),
                Err(rule) => json!({"event": n, "reply": "NOT_ALLOWED", "rule": rule, "sent": []}),
            },
        }
    }

    fn sign(&mut self, n: usize, party: String, document: &Value) -> Value {
        assert!(party == self.carrier && document.is_object());
        let name = Sha256::digest(serde_json::to_vec(document).unwrap()).into();
        if !self.names.insert(name) {
            return json!({"event": n, "reply": "KNOWN_BILL", "sent": []});
        }
        self.bills.push(Bill { is_live: false, carrier: party.clone(), possessor: party.clone(), holder: party });
        done(n, self.bills.len(), &self.bills[self.bills.len() - 1])
    }

    fn bill_line(&self, number: usize, bill: &Bill) -> Value {
        json!({"acts": [self.code], "bill": number, "end": self.code, "entries": 0, "forked": false,
               "holder": bill.holder, "possessor": bill.possessor, "state": bill.state()})
    }
}

fn done(n: usize, number: usize, bill: &Bill) -> Value {
    json!({"event": n, "reply": "DONE", "sent": [], "view": {"bill": number, "entries": 0, "holder": bill.holder,
           "place": "HELD", "possessor": bill.possessor, "state": bill.state()}})
}

impl Bill {
    fn state(&self) -> &'static str {
        if self.is_live { "LIVE" } else { "SIGNED" }
    }

    fn act(&mut self, deed: &str, party: &str, recipient: Option<String>) -> Result<(), &'static str> {
        if self.is_live == (deed == "ISSUE") {
            return Err("F4");
        }
        let to = recipient.ok_or("F5")?;
        match deed {
            "ISSUE" if party != self.carrier => return Err("F6"),
            "ISSUE" => {
                self.is_live = true;
                self.possessor = to.clone();
                self.holder = to;
            }
            _ if party != self.possessor => return Err("F7"),
            "ENDORSE" if party != self.holder => return Err("F8"),
            _ if to == party => return Err("F9"),
            "ENDORSE" => self.holder = to,
            "TRANSFER" => self.possessor = to,
            _ => panic!("another word of do"),
        }
        Ok(())
    }
}
