//! Shows the pages in what the decoder sends: packets on standard input, one a line, in hexadecimal. Numeric pages are read
//! by the standard set of characters, or with `chinese` as the argument by the Chinese one.
//!
//!     printf '01000407\n07031809\n0901C503\n' | cargo run --offline --package mortisevane --example receive
//!     printf '01000407\n07031809\n0901C6C3\n' | cargo run --offline --package mortisevane --example receive chinese

use std::env;
use std::io::{self, BufRead};

use mortisevane::calls::{Complete, CALL_WORDS};
use mortisevane::chains::CHAIN_BYTES;
use mortisevane::numeric::{self, CharacterSet, PAGE_CHARACTERS};
use mortisevane::packet::{
    Status, PACKET_ADDRESS, PACKET_FIRST_VECTOR, PACKET_LAST_WORD, PACKET_STATUS, VECTOR_ALPHANUMERIC, VECTOR_NUMBERED,
    VECTOR_SPECIAL, VECTOR_STANDARD,
};
use mortisevane::{Calls, Chains, Refusal};

struct Pager {
    /// No packet tells which set a sender uses.
    set: CharacterSet,
    calls: Calls,
    words: [u32; CALL_WORDS],
    chains: Chains,
    texts: [u8; CHAIN_BYTES],
}

fn show(address: u32, text: &[u8]) {
    println!("{address}: {}", String::from_utf8_lossy(text));
}

/// Of a text in several fragments only the last one has something to show, and of a numeric page all but the spaces at the
/// end.
fn page(page: Complete, set: CharacterSet, chains: &mut Chains, texts: &mut [u8]) -> Result<(), Refusal> {
    let call = page.call;
    match call.kind {
        VECTOR_STANDARD | VECTOR_SPECIAL | VECTOR_NUMBERED => {
            let mut text = [0; PAGE_CHARACTERS];
            show(call.address, numeric::read(set, call.kind, call.check, page.words, &mut text)?.shown());
        }
        VECTOR_ALPHANUMERIC => {
            if let Some(text) = chains.fragment(texts, call.address, page.words)?.text {
                show(call.address, text);
            }
        }
        kind => println!("{}: a page of type {kind}", call.address),
    }
    Ok(())
}

impl Pager {
    fn take(&mut self, packet: u32) -> Result<(), Refusal> {
        match packet >> 24 {
            PACKET_ADDRESS => {
                let opened = self.calls.open(packet)?;
                if opened.call.is_none() {
                    println!("{}: a tone", opened.address.address);
                }
            }
            PACKET_FIRST_VECTOR..=PACKET_LAST_WORD => {
                for complete in self.calls.hear(&mut self.words, packet)?.completed {
                    if let Err(refusal) = page(complete, self.set, &mut self.chains, &mut self.texts) {
                        println!("{}: {refusal}", complete.call.address);
                    }
                }
            }
            PACKET_STATUS if Status::read(packet)?.end_of_frame == 1 => {
                for call in self.calls.end_frame(&self.words)?.open_calls() {
                    println!("{}: a page is incomplete", call.address);
                }
            }
            _ => {}
        }
        Ok(())
    }
}

fn chosen_set() -> io::Result<CharacterSet> {
    match env::args().nth(1).as_deref() {
        None | Some("standard") => Ok(CharacterSet::Standard),
        Some("chinese") => Ok(CharacterSet::Chinese),
        Some(other) => Err(io::Error::new(io::ErrorKind::InvalidInput, format!("there is no set {other}"))),
    }
}

fn main() -> io::Result<()> {
    let set = chosen_set()?;
    let (calls, chains) = (Calls::default(), Chains::default());
    let mut pager = Pager { set, calls, words: [0; CALL_WORDS], chains, texts: [0; CHAIN_BYTES] };
    for line in io::stdin().lock().lines() {
        let line = line?;
        match u32::from_str_radix(line.trim(), 16) {
            Ok(packet) => pager.take(packet).unwrap_or_else(|refusal| println!("{packet:08X} {refusal}")),
            Err(fault) => println!("{line}: {fault}"),
        }
    }
    Ok(())
}
