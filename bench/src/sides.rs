//! The sides that are compared and measured: the proved calls, and the Rust implementation with names searched or in a map, and with a standard or a fast hash.
use crate::catalogue::Catalogue;
use crate::coordinator::Coordinator;
use crate::names::Names;
use crate::partition::Partition;
use crate::reader;
use crate::record::{Record, Status};
use crate::repeat;
use crate::script::{copied, Call, Lent, Server, WIDTH};
use std::hash::BuildHasher;
use std::marker::PhantomData;

/// What is measured, each with a sum of what was answered.
pub trait Side {
    /// Makes the calls of a script and notes their answers.
    fn run(&self, calls: &[Call], lent: &mut Lent, notes: &mut [u64]) -> u64;
    /// Makes the calls of a script, and then rounds of so many times a call, each from the state after the script on.
    fn repeat(&self, calls: &[Call], call: &Call, count: usize, rounds: usize, lent: &mut Lent) -> u64;
    fn open(&self, text: &[u8], log: &[u8], length: usize, rounds: usize) -> u64;
    fn encode(&self, text: &[u8], name: &[u8], set: u64, rounds: usize, out: &mut [u8]) -> u64;
    fn read(&self, words: &[u64], entries: usize, rounds: usize, out: &mut [u64]) -> u64;
}

pub struct Proved;

/// The static library of the crate bench_calls; a slice is a pointer and a length.
mod library {
    extern "C" {
        pub fn bench_calls_run(
            text: *const u8,
            text_length: usize,
            names: *const u8,
            names_length: usize,
            script: *const u64,
            script_length: usize,
            log: *mut u8,
            log_length: usize,
            words: *mut u64,
            words_length: usize,
            out: *mut u64,
            out_length: usize,
            notes: *mut u64,
            notes_length: usize,
        ) -> u64;
        pub fn bench_calls_repeat(
            text: *const u8,
            text_length: usize,
            names: *const u8,
            names_length: usize,
            script: *const u64,
            script_length: usize,
            call: *const u64,
            call_length: usize,
            count: usize,
            rounds: usize,
            log: *mut u8,
            log_length: usize,
            words: *mut u64,
            words_length: usize,
        ) -> u64;
        pub fn bench_calls_open(text: *const u8, text_length: usize, log: *const u8, log_length: usize, length: usize, rounds: usize) -> u64;
        pub fn bench_calls_encode(
            text: *const u8,
            text_length: usize,
            name: *const u8,
            name_length: usize,
            set: u64,
            rounds: usize,
            out: *mut u8,
            out_length: usize,
        ) -> u64;
        pub fn bench_calls_read(words: *const u64, words_length: usize, entries: usize, rounds: usize, out: *mut u64, out_length: usize) -> u64;
    }
}

fn numbers(calls: &[Call]) -> Vec<u64> {
    calls.iter().flat_map(Call::numbers).collect()
}

impl Side for Proved {
    fn run(&self, calls: &[Call], l: &mut Lent, notes: &mut [u64]) -> u64 {
        let script = numbers(calls);
        // SAFETY: the pointers and lengths are those of slices that live through the call, and no two overlap of which one is written.
        unsafe {
            library::bench_calls_run(
                l.text.as_ptr(),
                l.text.len(),
                l.names.as_ptr(),
                l.names.len(),
                script.as_ptr(),
                script.len(),
                l.log.as_mut_ptr(),
                l.log.len(),
                l.words.as_mut_ptr(),
                l.words.len(),
                l.out.as_mut_ptr(),
                l.out.len(),
                notes.as_mut_ptr(),
                notes.len(),
            )
        }
    }

    fn repeat(&self, calls: &[Call], call: &Call, count: usize, rounds: usize, l: &mut Lent) -> u64 {
        let script = numbers(calls);
        let call = call.numbers();
        // SAFETY: as in `run`.
        unsafe {
            library::bench_calls_repeat(
                l.text.as_ptr(),
                l.text.len(),
                l.names.as_ptr(),
                l.names.len(),
                script.as_ptr(),
                script.len(),
                call.as_ptr(),
                call.len(),
                count,
                rounds,
                l.log.as_mut_ptr(),
                l.log.len(),
                l.words.as_mut_ptr(),
                l.words.len(),
            )
        }
    }

    fn open(&self, text: &[u8], log: &[u8], length: usize, rounds: usize) -> u64 {
        // SAFETY: as in `run`.
        unsafe { library::bench_calls_open(text.as_ptr(), text.len(), log.as_ptr(), log.len(), length, rounds) }
    }

    fn encode(&self, text: &[u8], name: &[u8], set: u64, rounds: usize, out: &mut [u8]) -> u64 {
        // SAFETY: as in `run`.
        unsafe { library::bench_calls_encode(text.as_ptr(), text.len(), name.as_ptr(), name.len(), set, rounds, out.as_mut_ptr(), out.len()) }
    }

    fn read(&self, words: &[u64], entries: usize, rounds: usize, out: &mut [u64]) -> u64 {
        // SAFETY: as in `run`.
        unsafe { library::bench_calls_read(words.as_ptr(), words.len(), entries, rounds, out.as_mut_ptr(), out.len()) }
    }
}

/// The Rust implementation, by how it finds a name and by the hash of the reader's map.
pub struct Rust<N, S>(pub PhantomData<(N, S)>);

fn run<N: Names>(calls: &[Call], lent: &mut Lent, notes: &mut [u64]) -> Server<N> {
    let mut server = Server::start(lent.text, lent.log);
    for (k, call) in calls.iter().enumerate() {
        let outcome = server.make(call, lent);
        if let Some(note) = notes.get_mut(WIDTH * k..WIDTH * k + WIDTH) {
            note.copy_from_slice(&server.noted(outcome));
        }
    }
    server
}

impl<N: Names, S: BuildHasher + Default> Side for Rust<N, S> {
    fn run(&self, calls: &[Call], lent: &mut Lent, notes: &mut [u64]) -> u64 {
        run::<N>(calls, lent, notes).partition.stable_end() as u64
    }

    fn repeat(&self, calls: &[Call], call: &Call, count: usize, rounds: usize, lent: &mut Lent) -> u64 {
        let server = run::<N>(calls, lent, &mut []);
        repeat::repeat(&server, call, count, rounds, lent.names, lent.log, lent.words)
    }

    fn open(&self, text: &[u8], log: &[u8], length: usize, rounds: usize) -> u64 {
        let mut sum = 0u64;
        for _ in 0..rounds {
            let opened = Coordinator::<N>::open(text, log, length, 1, 0, 1000);
            sum = opened.map_or(sum, |s| sum.wrapping_add(s.clock as u64).wrapping_add(s.table.end as u64));
        }
        sum
    }

    fn encode(&self, text: &[u8], name: &[u8], set: u64, rounds: usize, out: &mut [u8]) -> u64 {
        let catalogue = Catalogue::parse(text).expect("a catalogue");
        let mut sum = 0;
        for k in 0..rounds {
            let r = Record { name, pid: 1000, epoch: 3, timeout: 60000, status: Status::Begin, joined: set, updated: k as i64, start: 100 };
            sum += r.encode(&catalogue, out).unwrap_or(0) as u64;
        }
        sum
    }

    fn read(&self, words: &[u64], entries: usize, rounds: usize, out: &mut [u64]) -> u64 {
        let mut p = Partition::new(words.len());
        p.end = entries;
        (0..rounds).fold(0u64, |sum, _| {
            let [number, count, next, ..] = copied(reader::read::<S>(&p, words, 0, out));
            sum.wrapping_add(number).wrapping_add(count).wrapping_add(next)
        })
    }
}
