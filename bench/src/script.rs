//! A script of calls in Rust: each is twelve numbers, as the crate bench_calls reads them, and is made on the state that the calls before it left.
use crate::coordinator::{Coordinator, Initialized, Order};
use crate::names::Names;
use crate::partition::Partition;
use crate::reader;
use crate::refusal::Refusal;
use std::hash::RandomState;

pub const WIDTH: usize = 12;

/// A result that there is none of, as ABORTING for Init.
pub const NONE: u64 = 1 << 63;

/// The kinds of calls by their numbers; `Row` only shows what is held at a place.
#[derive(Clone, Copy, Debug, PartialEq, Eq)]
#[repr(u64)]
pub enum Kind {
    Open,
    Partition,
    Init,
    Add,
    End,
    Tick,
    Flush,
    Order,
    Ack,
    Produce,
    Marker,
    Read,
    Row,
}

/// A call: the bytes of the log and the words that it is lent, the part of the names that is its name, and its arguments in document 01's order.
#[derive(Clone, Copy, Debug)]
pub struct Call {
    pub kind: Kind,
    pub bytes: usize,
    pub words: usize,
    pub name: (usize, usize),
    pub arguments: [u64; 5],
}

impl Call {
    pub fn numbers(&self) -> [u64; WIDTH] {
        let [a, b, c, d, e] = self.arguments;
        let (from, to) = self.name;
        [self.kind as u64, self.bytes as u64, self.words as u64, from as u64, to as u64, a, b, c, d, e, 0, 0]
    }
}

/// The number of an answer, 0 or the refusal, and its results.
pub type Outcome = [u64; 7];

pub fn done(answer: Result<(), Refusal>) -> Outcome {
    outcome(answer.map(|()| [0; 6]))
}

pub fn initialized(answer: Result<Initialized, Refusal>) -> Outcome {
    outcome(answer.map(|given| match given {
        Initialized::Given { pid, epoch } => [pid as u64, epoch as u64, 0, 0, 0, 0],
        Initialized::Aborting => [NONE, NONE, 0, 0, 0, 0],
    }))
}

pub fn ticked(answer: Result<Option<usize>, Refusal>) -> Outcome {
    outcome(answer.map(|place| [place.map_or(NONE, |place| place as u64), 0, 0, 0, 0, 0]))
}

pub fn ordered(answer: Option<Order>) -> Outcome {
    outcome(Ok(match answer {
        Some(o) => [o.place as u64, o.pid as u64, o.epoch as u64, o.verdict, o.position as u64, o.coordinator as u64],
        None => [NONE, 0, 0, 0, 0, 0],
    }))
}

pub fn produced(answer: Result<usize, Refusal>) -> Outcome {
    outcome(answer.map(|offset| [offset as u64, 0, 0, 0, 0, 0]))
}

pub fn copied(answer: Result<(usize, usize), Refusal>) -> Outcome {
    outcome(answer.map(|(count, next)| [count as u64, next as u64, 0, 0, 0, 0]))
}

fn outcome(answer: Result<[u64; 6], Refusal>) -> Outcome {
    match answer {
        Ok([a, b, c, d, e, f]) => [0, a, b, c, d, e, f],
        Err(refusal) => [u64::from(refusal.number), refusal.offset as u64, 0, 0, 0, 0, 0],
    }
}

/// What a script lends its calls.
pub struct Lent<'a> {
    pub text: &'a [u8],
    pub names: &'a [u8],
    pub log: &'a mut [u8],
    pub words: &'a mut [u64],
    pub out: &'a mut [u64],
}

/// A coordinator and one partition.
#[derive(Clone)]
pub struct Server<N> {
    pub coordinator: Coordinator<N>,
    pub partition: Partition,
}

impl<N: Names> Server<N> {
    /// After an opening of the empty log, with a partition of no words; a blank state if the text is no catalogue.
    pub fn start(text: &[u8], log: &[u8]) -> Server<N> {
        let coordinator = Coordinator::open(text, log, 0, 0, 0, 0).unwrap_or_else(|_| Coordinator::blank());
        Server { coordinator, partition: Partition::new(0) }
    }

    pub fn make(&mut self, call: &Call, lent: &mut Lent) -> Outcome {
        let Server { coordinator: s, partition: p } = self;
        let [a, b, c, d, e] = call.arguments;
        let name = &lent.names[call.name.0..call.name.1];
        let log = &mut lent.log[..call.bytes];
        let words = &mut lent.words[..call.words];
        match call.kind {
            Kind::Open => {
                let opened = Coordinator::open(lent.text, log, a as usize, b as i32, c as i64, d as i64);
                done(opened.map(|state| *s = state))
            }
            Kind::Partition => {
                *p = Partition::new(words.len());
                done(Ok(()))
            }
            Kind::Init => initialized(s.init(log, name, a as i32, b as i64)),
            Kind::Add => done(s.add(log, name, a as i64, b as i16, c, d as i64)),
            Kind::End => done(s.end(log, name, a as i64, b as i16, c, d as i64)),
            Kind::Tick => ticked(s.tick(log, a as i64)),
            Kind::Flush => done(s.flush(a as usize)),
            Kind::Order => ordered(s.order(a)),
            Kind::Ack => done(s.ack(log, a as usize, b as i64, c as i16, d as usize)),
            Kind::Produce => produced(p.produce(s, words, name, a as i64, b as i16, c as usize, d as i32, e)),
            Kind::Marker => done(p.marker(words, a as usize, b as i64, c as i16, d, e as i32)),
            Kind::Read => copied(reader::read::<RandomState>(p, words, a as usize, &mut lent.out[b as usize..c as usize])),
            Kind::Row => self.row(a as usize),
        }
    }

    /// What is held at a place, with the first byte of its name as the number.
    fn row(&self, place: usize) -> Outcome {
        self.coordinator.table.ids.get(place).map_or([0; 7], |id| {
            let kept = id.epoch as u64 * 65536 + id.status as u64;
            let times = id.updated as u64 + id.end as u64;
            [u64::from(id.name.as_bytes()[0]), id.pid as u64, kept, id.timeout as u64, id.joined, times, id.acknowledged]
        })
    }

    /// What is noted of a call: its answer, and what the state then holds.
    pub fn noted(&self, outcome: Outcome) -> [u64; WIDTH] {
        let [number, a, b, c, d, e, f] = outcome;
        let (s, p) = (&self.coordinator, &self.partition);
        [number, a, b, c, d, e, f, s.table.end as u64, s.flushed as u64, s.clock as u64, p.end as u64, p.coordinator as u64]
    }
}
