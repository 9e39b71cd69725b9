//! Random scripts of calls: mostly what a producer or a carrier would do next, so that every call and refusal comes up.
use crate::chance::Chance;
use crate::inputs::TEXT;
use crate::names::Searched;
use crate::record::{Status, EMPTY_FRAME, FRAME_MAX, NAME_MAX};
use crate::script::{Call, Kind, Lent, Server};

const TEXTS: [&[u8]; 3] = [TEXT, b"a\t1\n", b"x.y_Z-0123456789\t8\nb\t8\n"];
const LONGEST: &[u8; NAME_MAX] = b"building-07.line-0002.rig-00419.quadrupole-3.detector-bench-B-04";
const HALF: usize = NAME_MAX / 2;

/// How much of the longest name a name starts with, and what stands behind that.
const NAMES: [(usize, &[u8]); 12] = [
    (0, b"a"),
    (NAME_MAX, b""),
    (NAME_MAX - 1, b"5"),
    (NAME_MAX - 1, b""),
    (HALF, b""),
    (HALF + 1, b""),
    (HALF, b"r"),
    (0, b"rig7"),
    // no names:
    (0, b""),
    (NAME_MAX, b"4"),
    (0, b"a\x7f"),
    (HALF, b" "),
];
const GOOD_NAMES: usize = 8;
const MANY_NAMES: usize = 36;
const NUMBERS: [u64; 14] = [0, 1, 2, 31, 32, 63, 64, 1000, 32766, 32767, 2147483647, u64::MAX, 1 << 63, (1 << 63) - 1];

/// Where the clock is further, times stay behind it.
const LAST_TIME: u64 = 1_000_000_000_000_000;

/// The names one behind the other, and where each lies.
pub struct AllNames {
    pub bytes: Vec<u8>,
    parts: Vec<(usize, usize)>,
}

impl AllNames {
    fn push(&mut self, front: usize, rest: &[u8]) {
        let from = self.bytes.len();
        self.bytes.extend(&LONGEST[..front]);
        self.bytes.extend(rest);
        self.parts.push((from, self.bytes.len()));
    }
}

/// The names above, and many of 2, 33 and 64 bytes that differ in their last two.
pub fn all_names() -> AllNames {
    let mut all = AllNames { bytes: vec![], parts: vec![] };
    for (front, rest) in NAMES {
        all.push(front, rest);
    }
    for k in 0..MANY_NAMES {
        all.push([0, HALF - 1, NAME_MAX - 2][k % 3], format!("{k:02}").as_bytes());
    }
    all
}

/// The sizes of the lent buffers, and what the calls of a script are drawn for: so many names from the first one on.
struct Room {
    log: usize,
    words: usize,
    names: usize,
    first_name: usize,
}

/// Writes a script call by call: mostly what a producer or a carrier would do next, as the state says that the calls led to.
struct Writer<'a> {
    chance: Chance,
    names: &'a AllNames,
    room: Room,
    server: Server<Searched>,
    log: Vec<u8>,
    words: Vec<u64>,
    out: Vec<u64>,
    text: &'static [u8],
    time: u64,
    out_used: usize,
}

impl Writer<'_> {
    fn name(&mut self) -> usize {
        if self.chance.percent(4) {
            return self.chance.below(NAMES.len() as u64) as usize;
        }
        let k = self.chance.below(self.room.names as u64) as usize;
        if self.room.names > GOOD_NAMES {
            NAMES.len() + k
        } else {
            (self.room.first_name + k) % GOOD_NAMES
        }
    }

    fn subset(&mut self, set: u64) -> u64 {
        let drawn = self.chance.next() & self.chance.next() & set;
        if drawn == 0 {
            set & set.wrapping_neg()
        } else {
            drawn
        }
    }

    fn member(&mut self, set: u64) -> u64 {
        let positions: Vec<u64> = (0..64).filter(|p| set >> p & 1 == 1).collect();
        if positions.is_empty() {
            0
        } else {
            self.chance.of(&positions)
        }
    }

    /// The kind of the next call for the id at a place.
    fn next_kind(&mut self, place: Option<usize>) -> Kind {
        use Kind::*;
        if self.chance.percent(15) {
            return self.chance.of(&[Open, Tick, Read, Order, Marker, Flush, Row, Read, Row, Init, Add, End, Ack, Produce]);
        }
        let Some(place) = place else { return Init };
        let s = &self.server.coordinator;
        let id = &s.table.ids[place];
        if id.end > s.flushed {
            return if self.chance.percent(10) { Tick } else { Flush };
        }
        match id.status {
            Status::Begin => self.chance.of(&[Produce, Produce, Produce, Produce, Produce, End, Add, Add, Tick, Read, Row]),
            Status::PrepareCommit | Status::PrepareAbort => self.chance.of(&[Order, Marker, Marker, Ack, Ack, Ack]),
            _ => self.chance.of(&[Add, Add, Add, Add, Init, End]),
        }
    }

    fn next_sequence(&self, place: usize, pid: i64, epoch: i16) -> u64 {
        let known = self.server.partition.producers.get(place).copied().flatten();
        let last = known.filter(|q| q.pid == pid && q.epoch == epoch).and_then(|q| q.last);
        last.map_or(0, |last| last as u64 + 1)
    }

    fn arguments(&mut self, kind: Kind, place: Option<usize>) -> [u64; 5] {
        let s = &self.server.coordinator;
        let (all, end, flushed, leader) = (s.catalogue.all, s.table.end as u64, s.flushed as u64, s.epoch as u64);
        let held = place.map(|place| &s.table.ids[place]);
        let (pid, epoch, joined) = held.map_or((1000, 0, all), |id| (id.pid, id.epoch, if id.joined == 0 { all } else { id.joined }));
        // of a transaction: the positions that it may still join, and the last moment of its timeout
        let begun = held.filter(|id| id.status == Status::Begin);
        let more = all & !begun.map_or(0, |id| id.joined);
        let deadline = begun.map_or(self.time, |id| (id.start as u64).wrapping_add(id.timeout as u64));
        let at = place.unwrap_or(0);
        let (pid_number, epoch_number) = (pid as u64, epoch as u64);
        let verdict = self.chance.below(2);
        match kind {
            Kind::Open => {
                [self.chance.of(&[end, end, flushed, flushed + (end - flushed) / 2, 0]), leader + self.chance.below(2), 1000, self.chance.of(&[1003, 1999]), 0]
            }
            Kind::Partition => [0; 5],
            Kind::Init => [self.chance.of(&[1, 1000, 60000, 900000]), self.time, 0, 0, 0],
            Kind::Add => {
                let set = self.chance.of(&[more, more, all]);
                [pid_number, epoch_number, self.subset(if set == 0 { all } else { set }), self.time, 0]
            }
            Kind::End => [pid_number, epoch_number, verdict, self.time, 0],
            Kind::Tick => {
                let late = self.time + self.chance.of(&[0, 2, 70000]);
                [self.chance.of(&[late, deadline, deadline.wrapping_add(1)]), 0, 0, 0, 0]
            }
            Kind::Flush => [self.chance.of(&[end, end, end, flushed, flushed + (end - flushed) / 2]), 0, 0, 0, 0],
            Kind::Order => [self.chance.of(&[u64::MAX, u64::MAX, 1, 256]), 0, 0, 0, 0],
            Kind::Ack => [at as u64, pid_number, epoch_number, self.member(joined), 0],
            Kind::Produce => [pid_number, epoch_number, self.member(joined), self.next_sequence(at, pid, epoch), self.chance.next()],
            Kind::Marker => [at as u64, pid_number, epoch_number, verdict, leader],
            Kind::Read => {
                let from = self.out_used;
                self.out_used = (from + self.chance.below(12) as usize).min(self.out.len());
                [self.chance.below(self.server.partition.stable_end() as u64 + 1), from as u64, self.out_used as u64, 0, 0]
            }
            Kind::Row => [at as u64, 0, 0, 0, 0],
        }
    }

    /// One argument is another number.
    fn spoil(&mut self, call: &mut Call) {
        let k = if call.kind == Kind::Read { 0 } else { self.chance.below(5) as usize };
        let value = call.arguments[k];
        let drawn = self.chance.of(&NUMBERS);
        call.arguments[k] = self.chance.of(&[value.wrapping_add(1), value.wrapping_sub(1), drawn, drawn]);
    }

    fn call(&mut self) -> Call {
        self.time += self.chance.of(&[0, 1, 10, 1000]);
        if self.chance.percent(30) {
            // catches up with the clock, so that a widening has a later time than its start
            self.time = self.time.max((self.server.coordinator.clock as u64).min(LAST_TIME));
        }
        let n = self.name();
        let name = self.names.parts[n];
        let place = self.server.coordinator.table.place(&self.names.bytes[name.0..name.1]);
        let kind = self.next_kind(place);
        let arguments = self.arguments(kind, place);
        let mut call = Call { kind, bytes: self.room.log, words: self.room.words, name, arguments };
        if self.chance.percent(10) {
            self.spoil(&mut call);
        }
        for k in 0..5 {
            call.arguments[k] = within_type(kind, k, call.arguments[k]);
        }
        if self.chance.percent(1) {
            call.bytes -= 1;
            call.words -= 1;
        }
        call
    }

    /// Makes the call here too, so that the next one goes on from its state.
    fn make(&mut self, call: Call) -> Call {
        let mut lent = Lent { text: self.text, names: &self.names.bytes, log: &mut self.log, words: &mut self.words, out: &mut self.out };
        self.server.make(&call, &mut lent);
        call
    }
}

/// An argument as its type holds it: int16 for epochs, int32 for timeouts, sequences and coordinator epochs.
fn within_type(kind: Kind, k: usize, value: u64) -> u64 {
    match (kind, k) {
        (Kind::Init, 0) | (Kind::Open, 1) | (Kind::Produce, 3) | (Kind::Marker, 4) => value as i32 as u64,
        (Kind::Add | Kind::End | Kind::Produce, 1) | (Kind::Ack | Kind::Marker, 2) => value as i16 as u64,
        _ => value,
    }
}

/// A script with the catalogue's text and the sizes that it is for, and the log that it leaves.
pub struct RandomScript {
    pub text: &'static [u8],
    pub calls: Vec<Call>,
    pub bytes: usize,
    pub words: usize,
    pub log: Vec<u8>,
}

/// The words into which the reads of a script go.
pub const OUT_ROOM: usize = 400;

const LENGTH: usize = 300;

pub fn random_script(seed: u64, names: &AllNames) -> RandomScript {
    let mut chance = Chance(seed);
    let first_name = chance.below(GOOD_NAMES as u64) as usize;
    let (from, to) = names.parts[first_name];
    let tight = 2 * FRAME_MAX + EMPTY_FRAME + to - from + chance.below(3) as usize - 1;
    let room = Room {
        log: chance.of(&[tight, 2500, 8192, 40000, 70000, 70000, 100_000, 100_000]),
        words: chance.of(&[8, 67, 256, 1024]),
        names: chance.of(&[1, 3, GOOD_NAMES, MANY_NAMES]),
        first_name,
    };
    let text = chance.of(&TEXTS);
    let (log, words, out) = (vec![0; room.log], vec![0; room.words], vec![0; OUT_ROOM]);
    let server = Server::start(text, &log);
    let mut w = Writer { chance, names, room, server, log, words, out, text, time: 100, out_used: 0 };
    let (bytes, words) = (w.room.log, w.room.words);
    let first = |kind, arguments| Call { kind, bytes, words, name: (0, 1), arguments };
    let mut calls = vec![w.make(first(Kind::Open, [0, 1, 1000, 1999, 0])), w.make(first(Kind::Partition, [0; 5]))];
    for _ in 0..LENGTH {
        let call = w.call();
        calls.push(w.make(call));
    }
    w.log.truncate(w.server.coordinator.table.end);
    RandomScript { text, calls, bytes, words, log: w.log }
}
