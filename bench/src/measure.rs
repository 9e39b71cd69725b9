//! Measuring: each row on each side, by instructions and by CPU time, and the table.
use crate::callgrind;
use crate::cases::{cases, Case};
use crate::clock::cpu_time;
use crate::names::{Mapped, Searched};
use crate::reader::FastState;
use crate::sides::{Proved, Rust, Side};
use std::collections::HashMap;
use std::hash::RandomState;
use std::marker::PhantomData;
use std::time::Duration;

/// How often each time is taken, in turn over all rows and sides.
const PASSES: usize = 40;

/// The proved calls, the Rust implementation, and its other form: names in a map, or a fast hash for Read.
fn sides() -> [Box<dyn Side>; 3] {
    [Box::new(Proved), Box::new(Rust::<Searched, RandomState>(PhantomData)), Box::new(Rust::<Mapped, FastState>(PhantomData))]
}

fn label(case: &Case, side: usize, full: bool) -> String {
    format!("{} / {side} / {}", case.name, if full { "full" } else { "base" })
}

/// The sums of what was answered, without and with the rounds, are the same on all sides.
fn check(case: &Case, sums: &[u64]) {
    assert!(sums[2..] == [sums[0], sums[1], sums[0], sums[1]], "{}: {sums:?}", case.name);
}

/// Runs each row on each side with and without its rounds, under callgrind.
pub fn count() {
    let sides = sides();
    for mut case in cases() {
        let mut sums = vec![];
        for (k, side) in sides.iter().enumerate() {
            for full in [false, true] {
                sums.push(callgrind::count(&label(&case, k, full), || (case.work)(&**side, case.counted, full)));
            }
        }
        check(&case, &sums);
    }
}

fn counted(case: &Case, counts: &HashMap<String, u64>) -> Option<[f64; 3]> {
    let per_unit = |k| {
        let (full, base) = (counts.get(&label(case, k, true))?, counts.get(&label(case, k, false))?);
        Some((*full as f64 - *base as f64) / (case.units * case.counted) as f64)
    };
    Some([per_unit(0)?, per_unit(1)?, per_unit(2)?])
}

type Least = [[Duration; 2]; 3];

/// The least CPU time of each row on each side without and with its rounds.
fn timed(all: &mut [Case]) -> Vec<Least> {
    let sides = sides();
    let mut least = vec![[[Duration::MAX; 2]; 3]; all.len()];
    for _ in 0..PASSES {
        for (case, least) in all.iter_mut().zip(&mut least) {
            let mut sums = vec![];
            for (k, side) in sides.iter().enumerate() {
                for full in [false, true] {
                    let start = cpu_time();
                    sums.push((case.work)(&**side, case.timed, full));
                    let taken = &mut least[k][usize::from(full)];
                    *taken = (cpu_time() - start).min(*taken);
                }
            }
            check(case, &sums);
        }
    }
    least
}

fn nanoseconds(case: &Case, least: &Least) -> [f64; 3] {
    least.map(|[base, full]| full.saturating_sub(base).as_nanos() as f64 / (case.units * case.timed) as f64)
}

fn goal(case: &Case, ratio: f64) -> String {
    match case.goal {
        Some(goal) if ratio > goal + 0.005 => format!("{goal}, missed"),
        Some(goal) => format!("{goal}"),
        None => String::new(),
    }
}

/// Prints the table: instructions a call, a record or an entry where they were counted, and CPU time.
pub fn print(counts: Option<&HashMap<String, u64>>) {
    let mut all = cases();
    let times = timed(&mut all);
    println!("A figure is for one record of an opening, one call, or one entry of a Read; a ratio is ours to Rust's. Rust finds a name by a search; the column `map` has names in");
    println!("the standard map, and for Read a fast hash in place of the standard one. CPU time is the least of {PASSES}, the sides in turn.");
    println!("Every buffer was filled before, so that no page is touched for the first time, and was not cleared between two runs; caches are as the run before left them.");
    if counts.is_none() {
        println!("Instructions were not counted, since there is no valgrind: the ratio is that of CPU time, and the goals are for instructions.");
    }
    println!();
    println!("| | ours | Rust | map | ratio | goal | ns ours | ns Rust | ns map | ratio of ns |");
    println!("|---|---|---|---|---|---|---|---|---|---|");
    let mut slow = vec![];
    for (case, least) in all.iter().zip(&times) {
        let times = nanoseconds(case, least);
        let figures = counts.and_then(|counts| counted(case, counts));
        let by = figures.unwrap_or(times);
        let ratio = by[0] / by[1];
        let cells = figures.map_or(["-".into(), "-".into(), "-".into()], |f| f.map(|x| format!("{x:.0}"))).join(" | ");
        let [ours, rust, map] = times;
        println!("| {} | {cells} | {ratio:.2} | {} | {ours:.1} | {rust:.1} | {map:.1} | {:.1} |", case.name, goal(case, ratio), ours / rust);
        if case.is_call && ours > 300.0 {
            slow.push(format!("{} {ours:.0}", case.name));
        }
    }
    println!();
    println!("Calls above 0.3 microseconds (ns): {}.", if slow.is_empty() { "none".to_string() } else { slow.join(", ") });
}
