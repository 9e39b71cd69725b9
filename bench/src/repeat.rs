//! One call made many times in Rust, from a given state on, as the crate bench_calls does: with the names, pids and places of all ids in turn, or with times and lengths that rise by one.
use crate::log::PLACES;
use crate::names::Names;
use crate::record::NAME_MAX;
use crate::script::{done, initialized, ordered, produced, ticked, Call, Kind, Outcome, Server};

/// The bytes from one name to the next.
pub const NAME_STRIDE: usize = NAME_MAX;

fn with_outcome(sum: u64, outcome: Outcome) -> u64 {
    sum.wrapping_add(outcome[0]).wrapping_add(outcome[1]).wrapping_add(outcome[2])
}

fn name_at(names: &[u8], i: usize, length: usize) -> &[u8] {
    &names[NAME_STRIDE * i..][..length]
}

/// The calls of one round.
fn round<N: Names>(server: &Server<N>, call: &Call, count: usize, names: &[u8], log: &mut [u8], words: &mut [u64]) -> u64 {
    let Server { coordinator: mut s, partition: mut p } = server.clone();
    let [a, b, c, d, e] = call.arguments;
    let name = |i| name_at(names, i % PLACES, call.name.1);
    let plus = |x: u64, i: usize| x.wrapping_add(i as u64);
    let in_turn = |x: u64, i: usize| plus(x, i % PLACES);
    let mut sum = 0;
    match call.kind {
        Kind::Init => (0..count).for_each(|i| sum = with_outcome(sum, initialized(s.init(log, name(i), a as i32, b as i64)))),
        Kind::Add => (0..count).for_each(|i| sum = with_outcome(sum, done(s.add(log, name(i), in_turn(a, i) as i64, b as i16, c, d as i64)))),
        Kind::End => (0..count).for_each(|i| sum = with_outcome(sum, done(s.end(log, name(i), in_turn(a, i) as i64, b as i16, c, d as i64)))),
        Kind::Tick => (0..count).for_each(|i| sum = with_outcome(sum, ticked(s.tick(log, plus(a, i) as i64)))),
        Kind::Flush => (0..count).for_each(|i| sum = with_outcome(sum, done(s.flush(plus(a, i) as usize)))),
        Kind::Order => (0..count).for_each(|i| sum = with_outcome(sum, ordered(s.order(a.wrapping_add(65536 * i as u64))))),
        Kind::Ack => (0..count).for_each(|i| sum = with_outcome(sum, done(s.ack(log, in_turn(a, i) as usize, in_turn(b, i) as i64, c as i16, d as usize)))),
        Kind::Produce => (0..count).for_each(|i| {
            let answer = p.produce(&s, words, name(i), in_turn(a, i) as i64, b as i16, c as usize, d as i32, e);
            sum = with_outcome(sum, produced(answer));
        }),
        Kind::Marker => {
            (0..count).for_each(|i| sum = with_outcome(sum, done(p.marker(words, in_turn(a, i) as usize, in_turn(b, i) as i64, c as i16, d, e as i32))))
        }
        _ => {}
    }
    match call.kind {
        Kind::Produce | Kind::Marker => sum.wrapping_add(p.stable_end() as u64),
        _ => with_outcome(sum.wrapping_add(s.table.end as u64), ordered(s.order(u64::MAX))),
    }
}

/// Rounds of so many calls, each from the same state on.
pub fn repeat<N: Names>(server: &Server<N>, call: &Call, count: usize, rounds: usize, names: &[u8], log: &mut [u8], words: &mut [u64]) -> u64 {
    (0..rounds).fold(0, |sum, _| sum.wrapping_add(round(server, call, count, names, log, words)))
}
