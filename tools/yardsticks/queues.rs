// What a Rust programmer would use instead of a ring: crossbeam-queue's ArrayQueue, or a VecDeque in a Mutex, both of boxed slices.
// Usage: queues array|deque RECORDS LENGTH PRODUCERS     (0 producers: one thread pushes and pops in turn)
// Prints a line for each of three rounds: its nanoseconds, and 0.
use crossbeam_queue::ArrayQueue;
use std::collections::VecDeque;
use std::hint::black_box;
use std::sync::Mutex;
use std::thread;
use std::time::Instant;

const ROUNDS: u32 = 3;
const PLACES: usize = 4096;

type Record = Box<[u8]>;

trait Queue: Sync {
    /// Returns the record if there is no free place.
    fn push(&self, record: Record) -> Result<(), Record>;
    fn pop(&self) -> Option<Record>;
}

impl Queue for ArrayQueue<Record> {
    fn push(&self, record: Record) -> Result<(), Record> {
        ArrayQueue::push(self, record)
    }

    fn pop(&self) -> Option<Record> {
        ArrayQueue::pop(self)
    }
}

impl Queue for Mutex<VecDeque<Record>> {
    fn push(&self, record: Record) -> Result<(), Record> {
        let mut queue = self.lock().unwrap();
        if queue.len() == PLACES {
            return Err(record);
        }
        queue.push_back(record);
        Ok(())
    }

    fn pop(&self) -> Option<Record> {
        self.lock().unwrap().pop_front()
    }
}

fn record(length: usize) -> Record {
    vec![42; length].into_boxed_slice()
}

fn one_thread(queue: &impl Queue, records: usize, length: usize) {
    for _ in 0..records {
        queue.push(record(length)).unwrap();
        black_box(queue.pop());
    }
}

fn produce(queue: &impl Queue, records: usize, length: usize) {
    for _ in 0..records {
        let mut next = record(length);
        while let Err(back) = queue.push(next) {
            next = back;
            thread::yield_now();
        }
    }
}

fn threads(queue: &impl Queue, records: usize, length: usize, producers: usize) {
    let each = records / producers;
    thread::scope(|scope| {
        for _ in 0..producers {
            scope.spawn(|| produce(queue, each, length));
        }
        let mut taken = 0;
        while taken < each * producers {
            match queue.pop() {
                Some(record) => {
                    black_box(record);
                    taken += 1;
                }
                None => thread::yield_now(),
            }
        }
    });
}

fn rounds(queue: impl Queue, records: usize, length: usize, producers: usize) {
    for round in 0..=ROUNDS {
        let began = Instant::now();
        if producers == 0 {
            one_thread(&queue, records, length);
        } else {
            threads(&queue, records, length, producers);
        }
        if round > 0 {
            println!("{} 0", began.elapsed().as_nanos());
        }
    }
}

fn main() {
    let words: Vec<String> = std::env::args().collect();
    let number = |at: usize| words[at].parse().unwrap();
    let (records, length, producers) = (number(2), number(3), number(4));
    if words[1] == "array" {
        rounds(ArrayQueue::new(PLACES), records, length, producers);
    } else {
        rounds(Mutex::new(VecDeque::new()), records, length, producers);
    }
}
