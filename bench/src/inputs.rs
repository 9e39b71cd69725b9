//! What is measured on: names, states that a script of calls leads to, logs of a given length, and entries of interleaved producers.
use crate::coordinator::Coordinator;
use crate::names::Searched;
use crate::partition::{ABORT, COMMIT, DATA, ENTRY_WORDS};
use crate::repeat::NAME_STRIDE;
use crate::script::{Call, Kind, Lent, Server};

/// Two topics with three partitions, at the positions 0, 1 and 8.
pub const TEXT: &[u8] = b"scan\t2\ncert\t1\n";

/// Eight topics with eight partitions each, and names of 16 bytes: the longest records.
pub const LONGEST_TEXT: &[u8] = b"topic-aaaaaaaaaa\t8\ntopic-bbbbbbbbbb\t8\ntopic-cccccccccc\t8\ntopic-dddddddddd\t8\n\
topic-eeeeeeeeee\t8\ntopic-ffffffffff\t8\ntopic-gggggggggg\t8\ntopic-hhhhhhhhhh\t8\n";

pub const FIRST_PID: i64 = 1000;
pub const NAME_LENGTH: usize = 15;
pub const LOG_ROOM: usize = 65536;
pub const WORDS_ROOM: usize = 1024;

/// A name that differs from the others only in its last two bytes.
pub fn prefixed_name(k: usize) -> Vec<u8> {
    format!("rig-producer-{k:02}").into_bytes()
}

/// A name of 64 bytes that differs from the others only in its last two.
pub fn longest_name(k: usize) -> Vec<u8> {
    format!("building-07.line-0002.rig-00419.quadrupole-3.detector-bench-B-{k:02}").into_bytes()
}

/// A name of the same length as the prefixed ones that differs from the others in its first byte.
pub fn apart_name(k: usize) -> Vec<u8> {
    let mut name = b"Arig-producer-0".to_vec();
    name[0] += k as u8;
    name
}

/// A name that differs from the others in its first byte, and from most in its length.
pub fn name_of_length(k: usize) -> Vec<u8> {
    let mut name = apart_name(k);
    name.resize(7 + k % 16, b'-');
    name
}

/// 32 names of one prefix, one behind the other.
pub fn names() -> Vec<u8> {
    let mut all = vec![0; 32 * NAME_STRIDE];
    for k in 0..32 {
        all[NAME_STRIDE * k..][..NAME_LENGTH].copy_from_slice(&prefixed_name(k));
    }
    all
}

// ---- States.

/// A script under way: its calls so far, and the state that they led to.
pub struct Setup {
    pub names: Vec<u8>,
    pub calls: Vec<Call>,
    pub server: Server<Searched>,
    log: Vec<u8>,
    words: Vec<u64>,
    time: u64,
}

impl Setup {
    pub fn new() -> Setup {
        let log = vec![0; LOG_ROOM];
        let server = Server::start(TEXT, &log);
        let mut setup = Setup { names: names(), calls: vec![], server, log, words: vec![0; WORDS_ROOM], time: 100 };
        setup.make(setup.call(Kind::Open, 0, [0, 1, FIRST_PID as u64, i64::MAX as u64, 0]));
        setup.make(setup.call(Kind::Partition, 0, [0; 5]));
        setup
    }

    pub fn call(&self, kind: Kind, k: usize, arguments: [u64; 5]) -> Call {
        let from = NAME_STRIDE * k;
        Call { kind, bytes: LOG_ROOM, words: WORDS_ROOM, name: (from, from + NAME_LENGTH), arguments }
    }

    fn make(&mut self, call: Call) {
        let mut lent = Lent { text: TEXT, names: &self.names, log: &mut self.log, words: &mut self.words, out: &mut [] };
        let outcome = self.server.make(&call, &mut lent);
        assert_eq!(outcome[0], 0, "{call:?}");
        self.calls.push(call);
    }

    pub fn end(&self) -> usize {
        self.server.coordinator.table.end
    }

    fn flush(&mut self) {
        self.make(self.call(Kind::Flush, 0, [self.end() as u64, 0, 0, 0, 0]));
    }

    /// Makes a call for each name of a range, and flushes.
    fn each(mut self, range: std::ops::Range<usize>, call: impl Fn(&Setup, usize) -> Call) -> Setup {
        for k in range {
            self.make(call(&self, k));
        }
        self.flush();
        self
    }

    fn pid(&self, k: usize) -> u64 {
        let name = &self.names[NAME_STRIDE * k..][..NAME_LENGTH];
        let place = self.server.coordinator.table.place(name).expect("the name is held");
        self.server.coordinator.table.ids[place].pid as u64
    }

    /// An Init for the names of a range.
    pub fn initialized(self, range: std::ops::Range<usize>) -> Setup {
        let time = self.time;
        self.each(range, |s, k| s.call(Kind::Init, k, [60000, time, 0, 0, 0]))
    }

    /// An Add of a set for the names of a range.
    pub fn begun(self, range: std::ops::Range<usize>, set: u64) -> Setup {
        let time = self.time;
        self.each(range, |s, k| s.call(Kind::Add, k, [s.pid(k), 0, set, time, 0]))
    }

    /// A committing End for the names of a range.
    pub fn prepared(self, range: std::ops::Range<usize>) -> Setup {
        let time = self.time;
        self.each(range, |s, k| s.call(Kind::End, k, [s.pid(k), 0, 0, time, 0]))
    }

    /// An Ack from a position for the names of a range.
    pub fn acknowledged(self, range: std::ops::Range<usize>, position: u64) -> Setup {
        self.each(range, |s, k| s.call(Kind::Ack, k, [k as u64, s.pid(k), 0, position, 0]))
    }

    /// An entry at position 0 for the names of a range.
    pub fn produced(self, range: std::ops::Range<usize>) -> Setup {
        self.each(range, |s, k| s.call(Kind::Produce, k, [s.pid(k), 0, 0, 0, 7]))
    }

    /// A COMMIT marker for the places of a range.
    pub fn marked(self, range: std::ops::Range<usize>) -> Setup {
        self.each(range, |s, k| s.call(Kind::Marker, k, [k as u64, s.pid(k), 0, 0, 1]))
    }

    /// An Init for each name, of which no record is flushed.
    pub fn unflushed(mut self) -> Setup {
        for k in 0..32 {
            self.make(self.call(Kind::Init, k, [60000, self.time, 0, 0, 0]));
        }
        self
    }
}

// ---- Logs.

/// A log of transactions of these names in turn, of at most so many bytes, its buffer, and the number of its records.
pub struct Log {
    pub buffer: Vec<u8>,
    pub length: usize,
    pub records: usize,
}

pub fn log(names: &[Vec<u8>], bytes: usize) -> Log {
    let mut buffer = vec![0; bytes + 65536];
    let mut s = Coordinator::<Searched>::open(TEXT, &buffer, 0, 1, FIRST_PID, i64::MAX).expect("the empty log opens");
    let (mut records, mut length, mut time) = (0, 0, 100);
    for turn in 0.. {
        for name in names {
            time += 1;
            s.flush(s.table.end).expect("up to the end");
            let id = s.table.place(name).map(|place| (place, s.table.ids[place].pid, s.table.ids[place].epoch));
            let made = match (turn % 16, id) {
                (0, _) | (_, None) => s.init(&mut buffer, name, 60000, time).map(|_| ()),
                (step, Some((place, pid, epoch))) => match (step - 1) % 5 {
                    0 => s.add(&mut buffer, name, pid, epoch, 1, time),
                    1 => s.add(&mut buffer, name, pid, epoch, 257, time),
                    2 => s.end(&mut buffer, name, pid, epoch, step / 8, time),
                    3 => s.ack(&mut buffer, place, pid, epoch, 0),
                    _ => s.ack(&mut buffer, place, pid, epoch, 8),
                },
            };
            made.expect("no step is refused");
            if s.table.end > bytes {
                return Log { buffer, length, records };
            }
            records += usize::from(s.table.end > length);
            length = s.table.end;
        }
    }
    unreachable!("a log gets full")
}

// ---- Entries.

/// Entries of so many producers in turn: nine data entries and a marker each, every fourth an ABORT; none if there are to be no markers.
pub fn entries(count: usize, producers: u64, apart: u64, markers: bool) -> Vec<u64> {
    let mut words = Vec::with_capacity(ENTRY_WORDS * count);
    for k in 0..count as u64 {
        let (producer, turn) = (k % producers, k / producers);
        let pid = FIRST_PID as u64 + producer * apart;
        let kind = match (markers && turn % 10 == 9, (turn / 10) % 4) {
            (false, _) => DATA,
            (true, 3) => ABORT,
            (true, _) => COMMIT,
        };
        words.extend([pid, kind, turn, if kind == DATA { k } else { 0 }]);
    }
    words
}
