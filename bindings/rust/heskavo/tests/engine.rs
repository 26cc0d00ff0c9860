//! Each call of an engine, and a shared one.

use heskavo::{Engine, Error, Query, Record};
use std::sync::{Arc, Mutex};
use std::thread;

/// Reserves a record of eight bytes, and submits 42 if it was granted.
const SUBMIT_42: [u64; 12] = [
    0x1851_0000_0000_0000, 0, 0xb702_0000_0800_0000, 0xb703_0000_0000_0000, 0x8500_0000_8300_0000, 0x1500_0400_0000_0000,
    0x7a00_0000_2a00_0000, 0xbf01_0000_0000_0000, 0xb702_0000_0000_0000, 0x8500_0000_8400_0000, 0xb700_0000_0000_0000, 0x9500_0000_0000_0000,
];

fn bytes_of(units: &[u64]) -> Vec<u8> {
    units.iter().flat_map(|unit| unit.to_be_bytes()).collect()
}

#[test]
fn programs_and_callers_write_into_one_ring() {
    let mut engine = Engine::open(&[4096], 16).unwrap();
    let program = engine.load(&bytes_of(&SUBMIT_42)).unwrap();
    assert_eq!(engine.run(program, &[0; 16]), Ok(0));
    engine.put(0, b"abc", 0).unwrap();
    assert_eq!(engine.put(0, &[0; 4096], 0), Err(Error::Full));
    assert_eq!(engine.take(0), Ok(Some(Record { position: 0, len: 8, discarded: false, bytes: vec![42, 0, 0, 0, 0, 0, 0, 0] })));
    assert_eq!(engine.query(0, Query::AvailableData), Ok(16));
    assert_eq!(engine.take(0).unwrap().unwrap().bytes, b"abc");
    assert_eq!(engine.take(0), Ok(None));
    let counts = engine.counts(0).unwrap();
    assert_eq!([counts.made, counts.refused, counts.consumed, counts.waiting], [2, 1, 2, 0]);
}

#[test]
fn refusals_have_their_reasons() {
    assert_eq!(Engine::open(&[4097], 16).err(), Some(Error::Argument));
    let mut engine = Engine::open(&[4096], 16).unwrap();
    assert!(matches!(engine.load(&[0x95, 0, 0, 0, 0, 0, 0, 0]), Err(Error::Refused(verdict)) if verdict.layer == 3));
    let program = engine.load(&bytes_of(&SUBMIT_42)).unwrap();
    assert_eq!(engine.run(program, &[0; 15]), Err(Error::Argument));
    assert_eq!(engine.put(1, b"abc", 0), Err(Error::Argument));
}

#[test]
fn four_threads_share_an_engine_by_a_mutex() {
    let engine = Arc::new(Mutex::new(Engine::open(&[65_536], 0).unwrap()));
    let producers: Vec<_> = (0..4u8)
        .map(|number| {
            let engine = Arc::clone(&engine);
            thread::spawn(move || {
                for count in 0..500u32 {
                    let payload = [&[number][..], &count.to_le_bytes()].concat();
                    while engine.lock().unwrap().put(0, &payload, 0) == Err(Error::Full) {
                        thread::yield_now();
                    }
                }
            })
        })
        .collect();
    let (mut next, mut taken) = ([0u32; 4], 0);
    while taken < 2000 {
        let Some(record) = engine.lock().unwrap().take(0).unwrap() else {
            thread::yield_now();
            continue;
        };
        let number = usize::from(record.bytes[0]);
        assert_eq!(record.bytes[1..], next[number].to_le_bytes());
        next[number] += 1;
        taken += 1;
    }
    for producer in producers {
        producer.join().unwrap();
    }
    assert_eq!(engine.lock().unwrap().counts(0).unwrap().consumed, 2000);
}
