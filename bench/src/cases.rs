//! The rows of the table: what is measured, on which state, and the goal of each.
use crate::inputs::{
    apart_name, entries, log, longest_name, name_of_length, prefixed_name, Log, Setup, FIRST_PID, LOG_ROOM, LONGEST_TEXT, NAME_LENGTH, TEXT, WORDS_ROOM,
};
use crate::log::PLACES;
use crate::record::FRAME_MAX;
use crate::script::{Call, Kind, Lent};
use crate::sides::Side;

/// Work that a side does so many rounds of, or all of it but the rounds; it answers a sum of what was answered.
type Work = Box<dyn FnMut(&dyn Side, usize, bool) -> u64>;

pub struct Case {
    pub name: String,
    /// The calls, records or entries of a round.
    pub units: usize,
    /// The greatest ratio of instructions to the Rust implementation that is wanted.
    pub goal: Option<f64>,
    /// How often to go round when instructions are counted, and when time is taken.
    pub counted: usize,
    pub timed: usize,
    /// Whether this is one of the calls that may not take more than 0.3 microseconds.
    pub is_call: bool,
    pub work: Work,
}

const SET: u64 = 257;
const TIME: u64 = 100;
const PID: u64 = FIRST_PID as u64;
const MEBIBYTE: usize = 1 << 20;

/// Calls that each change the state: one for each place, then the state is as before.
const EACH: usize = PLACES;

/// Calls that leave the state as it is, or nearly.
const MANY: usize = 1024;

fn repeated(name: &str, goal: f64, setup: Setup, kind: Kind, count: usize, arguments: [u64; 5]) -> Case {
    let call = Call { name: (0, NAME_LENGTH), ..setup.call(kind, 0, arguments) };
    let Setup { names, calls, .. } = setup;
    let (mut log, mut words) = (vec![1; LOG_ROOM], vec![1; WORDS_ROOM]);
    let work = move |side: &dyn Side, rounds, full| {
        let mut lent = Lent { text: TEXT, names: &names, log: &mut log, words: &mut words, out: &mut [] };
        side.repeat(&calls, &call, if full { count } else { 0 }, rounds, &mut lent)
    };
    let counted = 512 / count.min(256);
    Case { name: name.into(), units: count, goal: Some(goal), counted, timed: 16384 / count, is_call: true, work: Box::new(work) }
}

fn opened(name: String, goal: Option<f64>, names: &[Vec<u8>], bytes: usize) -> Case {
    let Log { buffer, length, records } = log(names, bytes);
    let work = move |side: &dyn Side, rounds, full: bool| side.open(TEXT, &buffer, length, if full { rounds } else { 0 });
    Case { name, units: records, goal, counted: 1, timed: 1, is_call: false, work: Box::new(work) }
}

fn encoded(name: &str, goal: Option<f64>, text: &'static [u8], set: u64) -> Case {
    let own = prefixed_name(7);
    let mut out = [1; FRAME_MAX];
    let work = move |side: &dyn Side, rounds, full: bool| side.encode(text, &own, set, if full { rounds } else { 0 }, &mut out);
    Case { name: name.into(), units: 1, goal, counted: 1000, timed: 10_000, is_call: false, work: Box::new(work) }
}

fn read(name: String, goal: Option<f64>, count: usize, producers: u64, apart: u64, markers: bool) -> Case {
    let words = entries(count, producers, apart, markers);
    let mut out = vec![1; count];
    let work = move |side: &dyn Side, rounds, full: bool| side.read(&words, count, if full { rounds } else { 0 }, &mut out);
    Case { name, units: count, goal, counted: 1, timed: 1, is_call: false, work: Box::new(work) }
}

fn opening_cases() -> Vec<Case> {
    let names = |n: usize, name: fn(usize) -> Vec<u8>| -> Vec<Vec<u8>> { (0..n).map(name).collect() };
    let prefixed = |n| names(n, prefixed_name);
    vec![
        opened("opening, 4 MiB, 1 name".into(), Some(1.3), &prefixed(1), 4 * MEBIBYTE),
        opened("opening, 4 MiB, 8 names of one prefix".into(), None, &prefixed(8), 4 * MEBIBYTE),
        opened("opening, 4 MiB, 32 names of one prefix".into(), Some(1.0), &prefixed(32), 4 * MEBIBYTE),
        opened("opening, 4 MiB, 32 names apart".into(), Some(1.0), &names(32, apart_name), 4 * MEBIBYTE),
        opened("opening, 4 MiB, 32 names of 16 lengths".into(), Some(1.0), &names(32, name_of_length), 4 * MEBIBYTE),
        opened("opening, 4 MiB, 32 names of 64 bytes and one prefix".into(), Some(1.0), &names(32, longest_name), 4 * MEBIBYTE),
        opened("opening, 2 MiB, 32 names of one prefix".into(), Some(1.0), &prefixed(32), 2 * MEBIBYTE),
        opened("opening, 1 MiB, 32 names of one prefix".into(), Some(1.0), &prefixed(32), MEBIBYTE),
    ]
}

fn encode_cases() -> Vec<Case> {
    vec![encoded("encode, 2 topics, 3 partitions", Some(1.5), TEXT, 0x103), encoded("encode, 8 topics, 64 partitions", None, LONGEST_TEXT, u64::MAX)]
}

fn all() -> Setup {
    Setup::new().initialized(0..32)
}

fn begun() -> Setup {
    all().begun(0..32, SET)
}

fn prepared() -> Setup {
    begun().prepared(0..32)
}

fn own_cases() -> Vec<Case> {
    let past = all().end() as u64 + 1;
    vec![
        repeated("Order first", 8.0, prepared(), Kind::Order, MANY, [SET, 0, 0, 0, 0]),
        repeated("Order last", 8.0, all().begun(31..32, SET).prepared(31..32), Kind::Order, MANY, [SET, 0, 0, 0, 0]),
        repeated("Order none", 8.0, begun(), Kind::Order, MANY, [SET, 0, 0, 0, 0]),
        repeated("Tick none", 8.0, begun(), Kind::Tick, MANY, [TIME, 0, 0, 0, 0]),
        repeated("Tick aborts", 8.0, begun(), Kind::Tick, EACH, [TIME + 60001, 0, 0, 0, 0]),
        repeated("Flush done", 8.0, Setup::new().unflushed(), Kind::Flush, MANY, [0; 5]),
        repeated("Flush refused (7)", 8.0, all(), Kind::Flush, MANY, [past, 0, 0, 0, 0]),
        repeated("Ack one", 4.0, prepared(), Kind::Ack, EACH, [0, PID, 0, 0, 0]),
        repeated("Ack last", 4.0, all().begun(0..32, 1).prepared(0..32), Kind::Ack, EACH, [0, PID, 0, 0, 0]),
        repeated("Ack refused (18)", 4.0, prepared(), Kind::Ack, MANY, [0, PID, 0, 1, 0]),
    ]
}

fn producer_cases() -> Vec<Case> {
    let completed = all().begun(0..32, 1).prepared(0..32).acknowledged(0..32, 0);
    vec![
        repeated("Init new", 4.0, Setup::new().initialized(16..32), Kind::Init, 16, [60000, TIME, 0, 0, 0]),
        repeated("Init again", 4.0, all(), Kind::Init, EACH, [60000, TIME, 0, 0, 0]),
        repeated("Init aborts", 4.0, begun(), Kind::Init, EACH, [60000, TIME, 0, 0, 0]),
        repeated("Init refused (14)", 4.0, prepared(), Kind::Init, MANY, [60000, TIME, 0, 0, 0]),
        repeated("Add begins", 4.0, all(), Kind::Add, EACH, [PID, 0, SET, TIME, 0]),
        repeated("Add widens", 4.0, all().begun(0..32, 1), Kind::Add, EACH, [PID, 0, SET, TIME, 0]),
        repeated("Add joined", 4.0, begun(), Kind::Add, MANY, [PID, 0, SET, TIME, 0]),
        repeated("Add refused (14)", 4.0, prepared(), Kind::Add, MANY, [PID, 0, SET, TIME, 0]),
        repeated("End prepares", 4.0, begun(), Kind::End, EACH, [PID, 0, 0, TIME, 0]),
        repeated("End done", 4.0, completed, Kind::End, MANY, [PID, 0, 0, TIME, 0]),
        repeated("End refused (13)", 4.0, all(), Kind::End, MANY, [PID, 0, 0, TIME, 0]),
    ]
}

fn partition_cases() -> Vec<Case> {
    vec![
        repeated("Produce done", 8.0, begun(), Kind::Produce, EACH, [PID, 0, 0, 0, 7]),
        repeated("Produce refused (19)", 8.0, begun(), Kind::Produce, MANY, [PID, 0, 0, 5, 7]),
        repeated("Marker entry", 8.0, begun().produced(0..32), Kind::Marker, EACH, [0, PID, 0, 0, 1]),
        repeated("Marker none", 8.0, begun().produced(0..32).marked(0..32), Kind::Marker, MANY, [0, PID, 0, 0, 1]),
    ]
}

fn read_cases() -> Vec<Case> {
    const MILLION: usize = 1_000_000;
    vec![
        read("Read, 10^6 entries, 1 producer".into(), Some(1.0), MILLION, 1, 1, true),
        read("Read, 10^6 entries, 8 interleaved".into(), Some(1.0), MILLION, 8, 1, true),
        read("Read, 10^6 entries, 32 interleaved".into(), Some(1.0), MILLION, 32, 1, true),
        read("Read, 10^6 entries, 32 pids 64 apart".into(), None, MILLION, 32, 64, true),
        read("Read, 10^6 entries of 32, no markers".into(), None, MILLION, 32, 1, false),
        read("Read, 500 k entries, 8 interleaved".into(), Some(1.0), MILLION / 2, 8, 1, true),
        read("Read, 250 k entries, 8 interleaved".into(), Some(1.0), MILLION / 4, 8, 1, true),
    ]
}

/// All rows in the table's order.
pub fn cases() -> Vec<Case> {
    [opening_cases(), encode_cases(), own_cases(), producer_cases(), partition_cases(), read_cases()].into_iter().flatten().collect()
}
