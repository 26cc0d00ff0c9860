//! Verifies a program, prints what it can cost at most and of how many jobs a ring of SIZE bytes has room for the records, and counts those of the tape that
//! it wrote by their length: agent PROGRAM SIZE < TAPE

use heskavo_sys::{cost, tape_next, RingCost, DONE, FAULT, MORE, REFUSED};
use std::io::Read;
use std::process::ExitCode;

fn is_accepted(path: &str, size: u64) -> bool {
    let program = match std::fs::read(path) {
        Ok(program) => program,
        Err(_) => return false,
    };
    let mut rings = [RingCost::default()];
    let (status, cost, verdict) = cost(&program, 16, &mut rings);
    if status == REFUSED {
        println!("refused layer {} number {} unit {}", verdict.layer, verdict.number, verdict.unit);
    }
    if status != DONE {
        return false;
    }
    let [ring] = rings;
    println!("steps {} calls {}", cost.steps, cost.calls);
    println!("ring 0 records {} bytes {} held {}", ring.records, ring.bytes, ring.held_bytes);
    if size > 0 && ring.bytes > 0 {
        // Together they ask for fewer bytes than the ring has.
        println!("jobs {}", (size - 1) / ring.bytes);
    }
    true
}

fn main() -> ExitCode {
    let words: Vec<String> = std::env::args().collect();
    let [_, program, size] = words.as_slice() else {
        return ExitCode::FAILURE;
    };
    let size = size.parse().unwrap_or(0);
    if !is_accepted(program, size) {
        return ExitCode::FAILURE;
    }
    let (mut position, mut discarded, mut counts) = (0, 0u64, [0u64; 33]);
    let (mut status, mut fault) = (MORE, 0);
    let mut bytes = Vec::new();
    let mut input = std::io::stdin().lock();
    while status == MORE && matches!(input.by_ref().take(65_536).read_to_end(&mut bytes), Ok(1..)) {
        let mut at = 0;
        loop {
            let (answer, record) = tape_next(&bytes[at..], size, position);
            (status, fault) = (answer, record.fault);
            if status != DONE {
                break;
            }
            counts[32 - record.len.leading_zeros() as usize] += 1;
            discarded += u64::from(record.discarded);
            at += record.span as usize;
            position += record.span;
        }
        bytes.drain(..at);
    }
    for (bits, count) in counts.iter().enumerate().filter(|(_, count)| **count > 0) {
        println!("below {} {count}", 1u64 << bits);
    }
    println!("discarded {discarded} bytes {position}");
    if status == FAULT {
        println!("fault {fault}");
    } else if status == MORE && !bytes.is_empty() {
        println!("truncated");
    }
    if status == MORE && bytes.is_empty() { ExitCode::SUCCESS } else { ExitCode::FAILURE }
}
