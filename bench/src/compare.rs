//! Both analysers on the same file, budget and buffers: every answer and every number must be equal.

use crate::analyser;
use crate::calls;
use crate::inputs;
use std::collections::BTreeMap;

/// The face of the C function, which both analysers have.
pub type Analyse = fn(&[u8], u32, &mut [u16], &mut [u16], &mut [u64]) -> u32;

/// The library.
pub fn ours(file: &[u8], budget: u32, work: &mut [u16], list: &mut [u16], told: &mut [u64]) -> u32 {
    calls::analyse(file, budget, work, list, told)
}

/// The Rust analyser.
pub fn rust(file: &[u8], budget: u32, work: &mut [u16], list: &mut [u16], told: &mut [u64]) -> u32 {
    match analyser::analyse(file, budget, work, list) {
        Ok(a) => {
            told[..4].copy_from_slice(&[a.passes as u64, a.settled as u64, a.pairs as u64, 0]);
            0
        }
        Err(r) => {
            told[..4].copy_from_slice(&[0, 0, r.pairs() as u64, r.record() as u64]);
            r.number()
        }
    }
}

/// What is lent to a call. `told` is longer than what is told.
#[derive(PartialEq)]
pub struct Buffers {
    work: Vec<u16>,
    list: Vec<u16>,
    told: [u64; 6],
}

impl Buffers {
    /// Filled with a pattern, so that a number left alone is seen.
    pub fn new(work: usize, list: usize) -> Buffers {
        let pattern = |i: usize| (i * 7919 + 50_000) as u16;
        Buffers {
            work: (0..work).map(pattern).collect(),
            list: (0..list).map(pattern).collect(),
            told: [u64::MAX; 6],
        }
    }

    pub fn call(&mut self, analyse: Analyse, file: &[u8], budget: u32) -> u32 {
        analyse(file, budget, &mut self.work, &mut self.list, &mut self.told)
    }

    pub fn passes(&self) -> u64 {
        self.told[0]
    }

    pub fn pairs(&self) -> usize {
        self.told[2] as usize
    }
}

/// Stops unless the answer and all lent numbers are equal.
pub fn assert_same(what: &str, ours: (u32, &Buffers), rust: (u32, &Buffers)) {
    assert_eq!(ours.0, rust.0, "{what}: answer");
    assert_eq!(
        ours.1.told, rust.1.told,
        "{what}: passes, settled, pairs, record"
    );
    assert!(ours.1.work == rust.1.work, "{what}: work numbers");
    assert!(ours.1.list == rust.1.list, "{what}: list numbers");
}

/// Runs both with buffers of these sizes. Answers what they answered, and the pairs.
fn analyse_both(what: &str, file: &[u8], budget: u32, work: usize, list: usize) -> (u32, usize) {
    let (mut a, mut b) = (Buffers::new(work, list), Buffers::new(work, list));
    let answer = a.call(ours, file, budget);
    let other = b.call(rust, file, budget);
    assert_same(what, (answer, &a), (other, &b));
    (answer, a.pairs())
}

/// A call tells from the front, as much as there is room for.
fn assert_told(what: &str, expected: &[u64], call: impl Fn(&mut [u64]) -> u32) -> u32 {
    let mut answer = 0;
    for room in 0..expected.len() + 2 {
        let mut told = vec![u64::MAX; room + 1];
        answer = call(&mut told[..room]);
        let said = room.min(expected.len());
        assert_eq!(told[..said], expected[..said], "{what}: told");
        assert!(
            told[said..].iter().all(|&x| x == u64::MAX),
            "{what}: behind what is told"
        );
    }
    answer
}

/// Reading, and each event.
fn read_both(what: &str, file: &[u8]) {
    let (number, expected, events) = match analyser::read(file) {
        Ok(r) => (0, read_told(&r.trailer), r.events),
        Err(r) => (
            r.number(),
            [0, 0, 0, 0, 0, 0, 0, r.record() as u64],
            Vec::new(),
        ),
    };
    let answer = assert_told(what, &expected, |told| calls::read(file, told));
    assert_eq!(answer, number, "{what}: reading");
    for e in (0..events.len() + 2).chain([usize::MAX]) {
        let event = events.get(e).copied();
        event_both(
            &format!("{what}, event {e}"),
            file,
            e,
            event,
            (number, expected[7]),
        );
    }
}

fn read_told(t: &analyser::Trailer) -> [u64; 8] {
    let edition = t.edition as usize;
    [
        edition,
        t.start,
        t.records,
        t.tasks,
        t.semaphores,
        t.flags,
        t.cells,
        0,
    ]
    .map(|x| x as u64)
}

/// The event that the Rust analyser has, else the file's refusal, else 11.
fn event_both(
    what: &str,
    file: &[u8],
    e: usize,
    event: Option<analyser::Event>,
    refused: (u32, u64),
) {
    let (number, expected) = match (event, refused) {
        (Some(v), _) => (0, [v.task as u64, v.kind as u64 + 1, v.object as u64, 0]),
        (None, (0, _)) => (11, [0; 4]),
        (None, (number, record)) => (number, [0, 0, 0, record]),
    };
    let answer = assert_told(what, &expected, |told| calls::event(file, e, told));
    assert_eq!(answer, number, "{what}: answer");
}

/// One small file at several budgets, with room for all and with one number too few or too many.
fn small_both(seed: u64, answers: &mut BTreeMap<u32, usize>) {
    let file = inputs::small(seed);
    let what = format!("small recording {seed}");
    read_both(&what, &file);
    for budget in [0, 1, 2, 40, 28 * 28 + 1, u32::MAX] {
        let what = format!("{what}, budget {budget}");
        let (answer, pairs) = analyse_both(&what, &file, budget, 512, 1500);
        *answers.entry(answer).or_default() += 1;
        let size = analyser::read(&file).map_or(0, |r| 2 * r.events.len() * r.trailer.tasks);
        for (work, list) in [(size, 3 * pairs), (size + 1, 3 * pairs + 1)] {
            analyse_both(&what, &file, budget, work, list);
        }
        if size > 0 {
            let (answer, _) = analyse_both(&what, &file, budget, size - 1, 3 * pairs);
            *answers.entry(answer).or_default() += 1;
        }
        if pairs > 0 {
            let (answer, needed) = analyse_both(&what, &file, budget, size, 3 * pairs - 1);
            assert_eq!(needed, pairs, "{what}: pairs needed");
            *answers.entry(answer).or_default() += 1;
        }
    }
}

/// Compares small recordings, and tells how often each answer was given.
pub fn small_recordings(how_many: u64) {
    let mut answers = BTreeMap::new();
    for seed in 0..how_many {
        small_both(seed, &mut answers);
    }
    let told: Vec<String> = answers.iter().map(|(a, n)| format!("{a} ({n})")).collect();
    println!(
        "{how_many} small recordings: equal. Answers: {}.",
        told.join(", ")
    );
}

/// Compares large recordings, and files at the edges of their counts.
pub fn large_recordings(how_many: u64) {
    let mut files: Vec<Vec<u8>> = (0..how_many).map(inputs::large).collect();
    files.extend(inputs::edges());
    for (i, file) in files.iter().enumerate() {
        let what = format!("large recording {i}");
        read_both(&what, file);
        for budget in [0, 1, 40, 1024 * 1024 + 1] {
            analyse_both(&what, file, budget, 32_800, 3 * 600_000);
        }
    }
    println!("{} large recordings and edge files: equal.", files.len());
}
