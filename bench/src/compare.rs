//! Whether both sides answer alike: random scripts of calls, and random logs, whole, cut and damaged.
use crate::chance::Chance;
use crate::inputs::TEXT;
use crate::names::{Mapped, Searched};
use crate::partition::ENTRY_WORDS;
use crate::random_script::{all_names, random_script, RandomScript, OUT_ROOM};
use crate::reader::FastState;
use crate::record::FRAME_MAX;
use crate::script::{Call, Kind, Lent, Server, WIDTH};
use crate::sides::{Proved, Rust, Side};
use std::collections::BTreeMap;
use std::hash::RandomState;
use std::marker::PhantomData;

/// How often each call was answered with each number.
type Seen = BTreeMap<(u64, u64), usize>;

/// What a side leaves: the notes, and what it was lent.
#[derive(PartialEq)]
struct Left {
    notes: Vec<u64>,
    log: Vec<u8>,
    words: Vec<u64>,
    out: Vec<u64>,
    stable: u64,
}

fn left(side: &dyn Side, calls: &[Call], text: &[u8], names: &[u8], log: &[u8], words: usize, out: usize) -> Left {
    let mut left = Left { notes: vec![0; WIDTH * calls.len()], log: log.to_vec(), words: vec![5; words], out: vec![7777; out], stable: 0 };
    let mut lent = Lent { text, names, log: &mut left.log, words: &mut left.words, out: &mut left.out };
    left.stable = side.run(calls, &mut lent, &mut left.notes);
    left
}

fn same(calls: &[Call], text: &[u8], names: &[u8], log: &[u8], words: usize, out: usize, seen: &mut Seen) {
    let ours = left(&Proved, calls, text, names, log, words, out);
    let searched = left(&Rust::<Searched, RandomState>(PhantomData), calls, text, names, log, words, out);
    let mapped = left(&Rust::<Mapped, RandomState>(PhantomData), calls, text, names, log, words, out);
    for (k, call) in calls.iter().enumerate() {
        let at = WIDTH * k..WIDTH * k + WIDTH;
        assert_eq!(ours.notes[at.clone()], searched.notes[at.clone()], "call {k} of {}: {call:?}", calls.len());
        if call.kind != Kind::Row {
            *seen.entry((call.kind as u64, ours.notes[at.start])).or_default() += 1;
        }
    }
    assert!(ours == searched && ours == mapped, "what is left differs");
}

/// The frames of a whole log.
fn frames(log: &[u8]) -> Vec<&[u8]> {
    let mut rest = log;
    let mut frames = vec![];
    while let Some((head, _)) = rest.split_first_chunk::<8>() {
        let lengths = [[head[2], head[3]], [head[6], head[7]]].map(|length| usize::from(u16::from_be_bytes(length)));
        let (frame, behind) = rest.split_at(8 + lengths[0] + lengths[1]);
        frames.push(frame);
        rest = behind;
    }
    frames
}

/// A log with a frame that stands twice, is gone or comes late, or with bytes that were changed.
fn damaged(chance: &mut Chance, log: &[u8]) -> Vec<u8> {
    let mut frames = frames(log);
    let at = chance.below(frames.len() as u64 + 1) as usize;
    match chance.below(8) {
        0 if at < frames.len() => frames.insert(at, frames[at]),
        1 if at < frames.len() => drop(frames.remove(at)),
        2 if at + 1 < frames.len() => frames.swap(at, at + 1),
        _ => {}
    }
    let mut bytes = frames.concat();
    for _ in 0..chance.of(&[0, 0, 1, 1, 2]) {
        if !bytes.is_empty() {
            let at = chance.below(bytes.len() as u64) as usize;
            let any = chance.next() as u8;
            bytes[at] = chance.of(&[bytes[at] ^ 1, bytes[at].wrapping_add(1), any, 0]);
        }
    }
    bytes
}

/// Opens a log that was cut or damaged, and shows all rows.
fn compare_log(chance: &mut Chance, text: &[u8], log: &[u8], seen: &mut Seen) {
    let mut buffer = damaged(chance, log);
    let room = chance.of(&[0, 100, FRAME_MAX - 1, FRAME_MAX, 2 * FRAME_MAX - 1, 2 * FRAME_MAX, 40000]);
    let mut length = chance.below(buffer.len() as u64 + 1) as usize;
    if chance.percent(50) {
        length = buffer.len();
    }
    buffer.resize(buffer.len() + room, 0);
    let bytes = buffer.len();
    let call = |kind, arguments| Call { kind, bytes, words: 0, name: (0, 0), arguments };
    let mut calls = vec![call(Kind::Open, [length as u64, chance.of(&[0, 1, u64::MAX]), chance.of(&[0, 1000]), 1999, 0])];
    calls.extend((0..33).map(|place| call(Kind::Row, [place, 0, 0, 0, 0])));
    same(&calls, text, b"", &buffer, 0, 0, seen);
}

/// One id whose epoch goes up to 32767 and starts again with a new pid.
fn compare_epochs(seen: &mut Seen) {
    const ROOM: usize = 2 << 20;
    let names = b"rig7";
    let mut log = vec![0; ROOM];
    let mut s = Server::<Searched>::start(TEXT, &log);
    let mut calls = vec![];
    let mut make = |kind, arguments| {
        let call = Call { kind, bytes: ROOM, words: 0, name: (0, 4), arguments };
        calls.push(call);
        s.make(&call, &mut Lent { text: TEXT, names, log: &mut log, words: &mut [], out: &mut [] });
        let end = s.coordinator.table.end as u64;
        let call = Call { kind: Kind::Flush, arguments: [end, 0, 0, 0, 0], ..call };
        calls.push(call);
        s.make(&call, &mut Lent { text: TEXT, names, log: &mut log, words: &mut [], out: &mut [] });
    };
    make(Kind::Open, [0, 1, 1000, 1001, 0]);
    for time in 0..32767 {
        make(Kind::Init, [1, time, 0, 0, 0]);
    }
    for (kind, arguments) in [
        (Kind::Add, [1000, 32766, 257, 40000, 0]),
        (Kind::Init, [1, 40000, 0, 0, 0]),
        (Kind::Ack, [0, 1000, 32767, 0, 0]),
        (Kind::Ack, [0, 1000, 32767, 8, 0]),
        (Kind::Add, [1000, 32767, 1, 50000, 0]),
        (Kind::End, [1000, 32767, 1, 50000, 0]),
        (Kind::Init, [5, 50000, 0, 0, 0]),
        (Kind::Init, [5, 60000, 0, 0, 0]),
    ] {
        make(kind, arguments);
    }
    let end = s.coordinator.table.end as u64;
    calls.push(Call { kind: Kind::Open, bytes: ROOM, words: 0, name: (0, 0), arguments: [end, 1, 0, 2000, 0] });
    same(&calls, TEXT, names, &vec![0; ROOM], 0, 0, seen);
}

/// Texts that are no catalogue, or nearly.
fn compare_texts(seen: &mut Seen) {
    let texts: [&[u8]; 14] = [
        b"",
        b"\n",
        b"scan\t2",
        b"scan\t0\n",
        b"scan\t9\n",
        b"scan\t8\n",
        b"scan\t2\nscan\t1\n",
        b"sc n\t1\n",
        b"\t1\n",
        b"abcdefghijklmnopq\t1\n",
        b"abcdefghijklmnop\t1\n",
        b"scan\t2\r\n",
        b"a\t1\nb\t1\nc\t1\nd\t1\ne\t1\nf\t1\ng\t1\nh\t8\n",
        b"a\t1\nb\t1\nc\t1\nd\t1\ne\t1\nf\t1\ng\t1\nh\t8\ni\t1\n",
    ];
    for text in texts {
        for length in [0, 65, 80] {
            let call = Call { kind: Kind::Open, bytes: 80, words: 0, name: (0, 0), arguments: [length, 1, 5, 4 + length, 0] };
            same(&[call, Call { bytes: 64, ..call }], text, b"", &[0; 80], 0, 0, seen);
        }
    }
}

/// Entries of random kinds and pids, which no calls lead to, are read alike.
fn compare_reads(chance: &mut Chance) -> usize {
    for _ in 0..300 {
        let (pids, count) = (chance.of(&[1, 3, 40, 100]), chance.below(400) as usize);
        let words: Vec<u64> = (0..count).flat_map(|_| [chance.below(pids) * 64, chance.of(&[0, 0, 0, 0, 1, 2]), 0, chance.next()]).collect();
        let room = chance.below(400) as usize;
        let sides: [&dyn Side; 3] = [&Proved, &Rust::<Searched, RandomState>(PhantomData), &Rust::<Searched, FastState>(PhantomData)];
        let [ours, standard, fast] = sides.map(|side| {
            let mut out = vec![7777; room];
            (side.read(&words, words.len() / ENTRY_WORDS, 1, &mut out), out)
        });
        assert!(ours == standard && ours == fast, "a read differs");
    }
    300
}

/// Compares both sides; it ends the program at the first difference.
pub fn compare(scripts: u64) {
    let names = all_names();
    let mut seen = Seen::new();
    let mut logs = 0;
    for seed in 0..scripts {
        let RandomScript { text, calls, bytes, words, log } = random_script(seed, &names);
        same(&calls, text, &names.bytes, &vec![0; bytes], words, OUT_ROOM, &mut seen);
        let mut chance = Chance(seed ^ 0x5eed);
        for other in [text, text, text, TEXT] {
            compare_log(&mut chance, other, &log, &mut seen);
            logs += 1;
        }
    }
    compare_texts(&mut seen);
    compare_epochs(&mut seen);
    let reads = compare_reads(&mut Chance(1));
    let calls: usize = seen.values().sum();
    println!(
        "Both sides answered alike: {calls} calls of {scripts} scripts and {logs} openings of whole, cut and damaged logs, {reads} reads of random entries."
    );
    for kind in [Kind::Open, Kind::Init, Kind::Add, Kind::End, Kind::Tick, Kind::Flush, Kind::Order, Kind::Ack, Kind::Produce, Kind::Marker, Kind::Read] {
        let numbers: Vec<String> = seen.iter().filter(|(k, _)| k.0 == kind as u64).map(|(k, n)| format!("{}: {n}", k.1)).collect();
        println!("  {kind:?} answered {}", numbers.join(", "));
    }
}
