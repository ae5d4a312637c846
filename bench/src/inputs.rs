//! The recordings that are timed, and small ones, valid and damaged, that are only compared. All are made here from fixed seeds.

pub const SIGNAL: u8 = 1;
pub const WAIT: u8 = 2;
pub const FORK: u8 = 3;
pub const JOIN: u8 = 4;
pub const READ: u8 = 5;
pub const WRITE: u8 = 6;
pub const POST: u8 = 7;
pub const FLAG_WAIT: u8 = 8;
pub const SINGLE_READ: u8 = 9;
pub const SINGLE_WRITE: u8 = 10;

/// A small fixed pseudo-random generator (splitmix64).
pub struct Random(pub u64);

impl Random {
    pub fn next(&mut self) -> u64 {
        self.0 = self.0.wrapping_add(0x9e3779b97f4a7c15);
        let mut z = self.0;
        z = (z ^ (z >> 30)).wrapping_mul(0xbf58476d1ce4e5b9);
        z = (z ^ (z >> 27)).wrapping_mul(0x94d049bb133111eb);
        z ^ (z >> 31)
    }

    /// A number below `limit`, which is not 0.
    pub fn below(&mut self, limit: usize) -> usize {
        (self.next() % limit as u64) as usize
    }
}

#[derive(Clone, Copy)]
pub struct Record {
    pub task: u8,
    pub kind: u8,
    pub object: u16,
}

/// A recording before it is a file.
#[derive(Clone, Default)]
pub struct Recording {
    pub preamble: Vec<u8>,
    pub records: Vec<Record>,
    pub tasks: u16,
    pub semaphores: u16,
    pub flags: u16,
    pub cells: u16,
    pub edition: u16,
    pub starts: Vec<u8>,
    pub posts: Vec<u8>,
}

impl Recording {
    fn new(tasks: u16, semaphores: u16, cells: u16) -> Recording {
        Recording {
            tasks,
            semaphores,
            cells,
            edition: 1,
            ..Recording::default()
        }
    }

    fn add(&mut self, task: usize, kind: u8, object: usize) {
        self.records.push(Record {
            task: task as u8,
            kind,
            object: object as u16,
        });
    }

    pub fn file(&self) -> Vec<u8> {
        let mut file = self.preamble.clone();
        for r in &self.records {
            file.extend([r.task, r.kind]);
            file.extend(r.object.to_le_bytes());
        }
        if self.edition > 1 {
            file.extend(&self.starts);
        }
        if self.edition == 3 {
            file.extend(&self.posts);
        }
        file.extend((self.preamble.len() as u32).to_le_bytes());
        file.extend((self.records.len() as u32).to_le_bytes());
        let field = self.semaphores + 256 * self.flags;
        for count in [self.tasks, field, self.cells, self.edition] {
            file.extend(count.to_le_bytes());
        }
        file
    }
}

// ---- the recordings that are timed

/// 512 signals, then 512 waits on one semaphore, the 16 tasks in turn.
fn busy() -> Recording {
    let mut r = Recording::new(16, 1, 0);
    for i in 0..1024 {
        r.add(i % 16, if i < 512 { SIGNAL } else { WAIT }, 0);
    }
    r
}

/// 1S (0P 0S)^510 0S 1P 1P.
fn chain() -> Recording {
    let mut r = Recording::new(2, 1, 0);
    r.add(1, SIGNAL, 0);
    for _ in 0..510 {
        r.add(0, WAIT, 0);
        r.add(0, SIGNAL, 0);
    }
    r.add(0, SIGNAL, 0);
    r.add(1, WAIT, 0);
    r.add(1, WAIT, 0);
    r
}

/// Climbers on a ladder of m steps: 5,474 passes. Semaphore 0 is the ladder's, then each climber i has G(i) and H(i).
fn climbers() -> Recording {
    let (m, c) = (456, 12);
    let (g, h) = (|i: usize| 1 + i, |i: usize| 1 + c + i);
    let mut r = Recording::new(16, 1 + 2 * c as u16, 0);
    r.add(1, SIGNAL, 0);
    (0..c).for_each(|i| r.add(1, SIGNAL, g(i)));
    for _ in 0..m {
        r.add(0, WAIT, 0);
        r.add(0, SIGNAL, 0);
    }
    (0..c).for_each(|i| r.add(0, WAIT, g(i)));
    (0..c + 2).for_each(|_| r.add(0, SIGNAL, 0));
    r.add(2, WAIT, 0);
    r.add(3, WAIT, 0);
    (0..c).for_each(|i| r.add(2 + (i + 1) % 2, SIGNAL, g(i)));
    (0..c).for_each(|i| r.add(2 + i % 2, SIGNAL, h(i)));
    for i in 0..c {
        r.add(4 + i, WAIT, h(i));
        r.add(4 + i, WAIT, 0);
        r.add(4 + i, WAIT, g(i));
        if i + 1 < c {
            r.add(4 + i, SIGNAL, h(i + 1));
        }
    }
    r
}

/// Reads and writes alone. A task that is never forked exists from the start, so no fork is needed.
fn accesses() -> Recording {
    let mut random = Random(6);
    let mut r = Recording::new(16, 0, 32);
    for _ in 0..1024 {
        r.add(
            random.below(16),
            READ + random.below(2) as u8,
            random.below(32),
        );
    }
    r
}

/// 512 posts, then 512 flag waits that need 255 posts, the 16 tasks in turn.
fn flags() -> Recording {
    let mut r = Recording::new(16, 0, 0);
    r.edition = 3;
    r.flags = 1;
    r.posts = vec![255];
    for i in 0..1024 {
        r.add(i % 16, if i < 512 { POST } else { FLAG_WAIT }, 0);
    }
    r
}

/// All kinds at random, edition 3; the upper half of the tasks have no record before they are forked.
fn mixed(
    seed: u64,
    events: usize,
    tasks: u16,
    semaphores: u16,
    flags: u16,
    cells: u16,
) -> Recording {
    let mut random = Random(seed);
    let mut r = Recording::new(tasks, semaphores, cells);
    r.edition = 3;
    r.flags = flags;
    r.starts = (0..semaphores).map(|_| random.below(4) as u8).collect();
    r.posts = (0..flags).map(|_| 1 + random.below(6) as u8).collect();
    let r = Maker::new(r, random, tasks as usize / 2).make(events);
    assert_eq!(r.records.len(), events);
    r
}

/// Each recording that is timed, with its name.
pub fn timed() -> Vec<(&'static str, Recording)> {
    vec![
        ("512 signals, 512 waits", busy()),
        ("chain of waits and signals", chain()),
        ("climbers", climbers()),
        ("mixed, 200 cells", mixed(4, 1024, 16, 8, 6, 200)),
        ("mixed, 1,024 cells", mixed(5, 1024, 16, 8, 6, 1024)),
        ("1,024 accesses", accesses()),
        ("512 posts, 512 flag waits", flags()),
        ("16 events, mixed", mixed(1394, 16, 4, 2, 1, 2)),
        ("no events", Recording::new(16, 0, 0)),
    ]
}

// ---- records that the rules accept, picked at random

/// Makes a recording record by record, and keeps what the rules need to know.
struct Maker {
    recording: Recording,
    random: Random,
    /// Tasks from here on have no record before they are forked.
    born: usize,
    forked: Vec<bool>,
    joined: Vec<bool>,
    level: Vec<usize>,
    posted: Vec<usize>,
}

impl Maker {
    fn new(recording: Recording, random: Random, born: usize) -> Maker {
        let starts = &recording.starts;
        let level = |s: u16| starts.get(s as usize).map_or(0, |&n| n as usize);
        Maker {
            born,
            forked: vec![false; recording.tasks as usize],
            joined: vec![false; recording.tasks as usize],
            level: (0..recording.semaphores).map(level).collect(),
            posted: vec![0; recording.flags as usize],
            recording,
            random,
        }
    }

    /// Adds up to so many records; fewer where few can be made of these counts.
    fn make(mut self, events: usize) -> Recording {
        for _ in 0..16 * events {
            if self.recording.records.len() < events {
                self.step();
            }
        }
        self.recording
    }

    fn alive(&self, task: usize) -> bool {
        !self.joined[task] && (task < self.born || self.forked[task])
    }

    fn step(&mut self) {
        let task = self.random.below(self.forked.len());
        let single = self.recording.edition == 3;
        let kind = match self.random.below(100) {
            0..5 if single => SINGLE_WRITE,
            0..15 => WRITE,
            15..23 if single => SINGLE_READ,
            15..40 => READ,
            40..58 => SIGNAL,
            58..73 => WAIT,
            73..82 => POST,
            82..91 => FLAG_WAIT,
            91..97 => FORK,
            _ => JOIN,
        };
        let names = match kind {
            SIGNAL | WAIT => self.level.len(),
            POST | FLAG_WAIT => self.posted.len(),
            READ | WRITE | SINGLE_READ | SINGLE_WRITE => self.recording.cells as usize,
            _ => self.forked.len(),
        };
        if names == 0 || !self.alive(task) {
            return;
        }
        let object = self.random.below(names);
        if self.allowed(task, kind, object) {
            self.note(kind, object);
            self.recording.add(task, kind, object);
        }
    }

    fn allowed(&self, task: usize, kind: u8, x: usize) -> bool {
        match kind {
            WAIT => self.level[x] > 0,
            FLAG_WAIT => self.posted[x] >= self.recording.posts[x] as usize,
            FORK => x >= self.born && !self.forked[x] && x != task,
            JOIN => self.forked[x] && !self.joined[x] && x != task,
            _ => true,
        }
    }

    fn note(&mut self, kind: u8, x: usize) {
        match kind {
            SIGNAL => self.level[x] += 1,
            WAIT => self.level[x] -= 1,
            POST => self.posted[x] += 1,
            FORK => self.forked[x] = true,
            JOIN => self.joined[x] = true,
            _ => {}
        }
    }
}

/// A recording as large as may be, or smaller, of any seed.
pub fn large(seed: u64) -> Vec<u8> {
    let mut random = Random(seed);
    let events = 1 + random.below(1024);
    let cells = 1 + random.below(1024) as u16;
    mixed(!seed, events, 16, 8, 6, cells).file()
}

/// Files at the edges of their counts: the largest that are accepted, and one more.
pub fn edges() -> Vec<Vec<u8>> {
    let with = |tasks, semaphores: u16, flags: u16, cells, events: usize| {
        let mut r = Recording::new(tasks, semaphores, cells);
        r.edition = 3;
        r.flags = flags;
        r.starts = vec![255; semaphores as usize];
        r.posts = vec![255; flags as usize];
        (0..events).for_each(|i| r.add(i % 16, READ + (i % 2) as u8, 1023));
        r.file()
    };
    let mut files = vec![with(16, 64, 64, 1024, 1024), with(16, 64, 64, 1024, 1025)];
    files.extend([0, 1, 15, 17].map(|tasks| with(tasks, 0, 0, 1024, 16)));
    files.extend([with(16, 65, 64, 1024, 1), with(16, 64, 65, 1024, 1)]);
    files.extend([1023, 1025].map(|cells| with(16, 64, 64, cells, 1)));
    files.extend((0..20).map(|length| vec![0; length]));
    files
}

// ---- small recordings

/// A small recording of any edition that reading accepts.
fn small_valid(seed: u64) -> Recording {
    let mut random = Random(seed);
    let tasks = 1 + random.below(6);
    let mut r = Recording::new(tasks as u16, random.below(4) as u16, random.below(4) as u16);
    r.edition = 1 + random.below(3) as u16;
    r.preamble = (0..random.below(5)).map(|i| i as u8).collect();
    if r.edition > 1 {
        r.starts = (0..r.semaphores).map(|_| random.below(3) as u8).collect();
    }
    if r.edition == 3 {
        r.flags = random.below(4) as u16;
        r.posts = (0..r.flags).map(|_| 1 + random.below(3) as u8).collect();
    }
    let born = 1 + random.below(tasks);
    let events = random.below(28);
    Maker::new(r, random, born).make(events)
}

/// Changes a record to one of any kind, task and object near their counts.
fn damage_record(r: &mut Recording, random: &mut Random) {
    let n = r.records.len();
    if n > 0 {
        r.records[random.below(n)] = Record {
            task: random.below(r.tasks as usize + 1) as u8,
            kind: random.below(12) as u8,
            object: random.below(5) as u16,
        };
    }
}

/// Changes the bytes of a file: one of its last or of all, its length, or none.
fn damage_file(file: &mut Vec<u8>, random: &mut Random) {
    let n = file.len();
    match random.below(8) {
        0 => file.truncate(random.below(n + 1)),
        1 => file.push(random.below(256) as u8),
        2 => file[random.below(n)] = random.below(256) as u8,
        3 => file[n - 1 - random.below(16)] ^= 1 << random.below(8),
        4 => file[n - 2] = random.below(5) as u8,
        5 => file[random.below(n)] = 0,
        _ => {}
    }
}

/// A small file: a third of them accepted, a third with a record changed, a third with bytes changed.
pub fn small(seed: u64) -> Vec<u8> {
    let mut r = small_valid(seed);
    let mut random = Random(!seed);
    match seed % 3 {
        0 => r.file(),
        1 => {
            damage_record(&mut r, &mut random);
            r.file()
        }
        _ => {
            let mut file = r.file();
            damage_file(&mut file, &mut random);
            file
        }
    }
}
