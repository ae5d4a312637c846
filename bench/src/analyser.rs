//! An ordinary analyser in Rust, written from the papers and the definitions, not from the library's code: it reads a file,
//! gathers once a call what the passes look up, and then raises every event in every pass.

use std::iter::zip;

#[derive(Clone, Copy, PartialEq, Eq)]
pub enum Kind {
    Signal,
    Wait,
    Fork,
    Join,
    Read,
    Write,
    Post,
    FlagWait,
    SingleRead,
    SingleWrite,
}

impl Kind {
    fn is_write(self) -> bool {
        matches!(self, Kind::Write | Kind::SingleWrite)
    }

    fn is_single(self) -> bool {
        matches!(self, Kind::SingleRead | Kind::SingleWrite)
    }

    fn is_access(self) -> bool {
        self.is_single() || matches!(self, Kind::Read | Kind::Write)
    }
}

/// A refusal, with the faulty record or the pairs needed.
#[derive(Clone, Copy)]
pub enum Refusal {
    Short,
    Edition,
    Extent,
    Count,
    Kind(usize),
    Name(usize),
    Life(usize),
    Empty(usize),
    Work,
    List(usize),
    Flag(usize),
}

impl Refusal {
    pub fn number(self) -> u32 {
        match self {
            Refusal::Short => 1,
            Refusal::Edition => 2,
            Refusal::Extent => 3,
            Refusal::Count => 4,
            Refusal::Kind(_) => 5,
            Refusal::Name(_) => 6,
            Refusal::Life(_) => 7,
            Refusal::Empty(_) => 8,
            Refusal::Work => 9,
            Refusal::List(_) => 10,
            Refusal::Flag(_) => 16,
        }
    }

    pub fn record(self) -> usize {
        match self {
            Refusal::Kind(e) | Refusal::Name(e) | Refusal::Life(e) => e,
            Refusal::Empty(e) | Refusal::Flag(e) => e,
            _ => 0,
        }
    }

    pub fn pairs(self) -> usize {
        match self {
            Refusal::List(pairs) => pairs,
            _ => 0,
        }
    }
}

#[derive(Clone, Copy)]
pub struct Event {
    pub task: usize,
    pub kind: Kind,
    pub object: usize,
}

pub struct Trailer {
    pub start: usize,
    pub records: usize,
    pub tasks: usize,
    pub semaphores: usize,
    pub flags: usize,
    pub cells: usize,
    pub edition: u16,
}

/// An accepted file.
pub struct Recording<'a> {
    pub trailer: Trailer,
    pub events: Vec<Event>,
    starts: &'a [u8],
    posts: &'a [u8],
}

// ---- reading

fn u16_at(bytes: &[u8], i: usize) -> u16 {
    u16::from_le_bytes([bytes[i], bytes[i + 1]])
}

fn u32_at(bytes: &[u8], i: usize) -> u32 {
    u32::from_le_bytes([bytes[i], bytes[i + 1], bytes[i + 2], bytes[i + 3]])
}

impl Trailer {
    fn of(bytes: &[u8]) -> Trailer {
        let edition = u16_at(bytes, 14);
        let field = u16_at(bytes, 10) as usize;
        let (semaphores, flags) = if edition == 3 {
            (field % 256, field / 256)
        } else {
            (field, 0)
        };
        Trailer {
            start: u32_at(bytes, 0) as usize,
            records: u32_at(bytes, 4) as usize,
            tasks: u16_at(bytes, 8) as usize,
            semaphores,
            flags,
            cells: u16_at(bytes, 12) as usize,
            edition,
        }
    }

    /// How many start bytes stand behind the records.
    fn start_bytes(&self) -> usize {
        if self.edition == 1 {
            0
        } else {
            self.semaphores
        }
    }

    fn in_range(&self) -> bool {
        (1..=16).contains(&self.tasks)
            && self.semaphores <= 64
            && self.flags <= 64
            && self.cells <= 1024
            && self.records <= 1024
    }

    fn kind_of(&self, byte: u8) -> Option<Kind> {
        let kind = match byte {
            1 => Kind::Signal,
            2 => Kind::Wait,
            3 => Kind::Fork,
            4 => Kind::Join,
            5 => Kind::Read,
            6 => Kind::Write,
            7 if self.edition == 3 => Kind::Post,
            8 if self.edition == 3 => Kind::FlagWait,
            9 if self.edition == 3 => Kind::SingleRead,
            10 if self.edition == 3 => Kind::SingleWrite,
            _ => return None,
        };
        Some(kind)
    }

    /// How many names there are for the object of an event of this kind.
    fn names(&self, kind: Kind) -> usize {
        match kind {
            Kind::Signal | Kind::Wait => self.semaphores,
            Kind::Fork | Kind::Join => self.tasks,
            Kind::Read | Kind::Write | Kind::SingleRead | Kind::SingleWrite => self.cells,
            Kind::Post | Kind::FlagWait => self.flags,
        }
    }

    /// Refusals 5 and 6.
    fn event_of(&self, bytes: &[u8], e: usize) -> Result<Event, Refusal> {
        let kind = self.kind_of(bytes[1]).ok_or(Refusal::Kind(e))?;
        let task = bytes[0] as usize;
        let object = u16_at(bytes, 2) as usize;
        if task >= self.tasks || object >= self.names(kind) {
            return Err(Refusal::Name(e));
        }
        Ok(Event { task, kind, object })
    }
}

/// What the rules need to know of the records read so far.
struct Rules {
    seen: Vec<bool>,
    forked: Vec<bool>,
    joined: Vec<bool>,
    level: Vec<usize>,
    missing: Vec<usize>,
}

impl Rules {
    fn new(trailer: &Trailer, starts: &[u8], posts: &[u8]) -> Rules {
        let mut level: Vec<usize> = starts.iter().map(|&s| s as usize).collect();
        level.resize(trailer.semaphores, 0);
        Rules {
            seen: vec![false; trailer.tasks],
            forked: vec![false; trailer.tasks],
            joined: vec![false; trailer.tasks],
            level,
            missing: posts.iter().map(|&p| p as usize).collect(),
        }
    }

    fn life_kept(&self, event: &Event) -> bool {
        let other = event.object;
        !self.joined[event.task]
            && match event.kind {
                Kind::Fork => other != event.task && !self.forked[other] && !self.seen[other],
                Kind::Join => other != event.task && self.forked[other] && !self.joined[other],
                _ => true,
            }
    }

    /// Refusals 7, 8 and 16; then the record counts as read.
    fn take(&mut self, event: &Event, e: usize) -> Result<(), Refusal> {
        if !self.life_kept(event) {
            return Err(Refusal::Life(e));
        }
        let x = event.object;
        match event.kind {
            Kind::Wait if self.level[x] == 0 => return Err(Refusal::Empty(e)),
            Kind::FlagWait if self.missing[x] > 0 => return Err(Refusal::Flag(e)),
            Kind::Wait => self.level[x] -= 1,
            Kind::Signal => self.level[x] += 1,
            Kind::Post => self.missing[x] = self.missing[x].saturating_sub(1),
            Kind::Fork => self.forked[x] = true,
            Kind::Join => self.joined[x] = true,
            Kind::FlagWait => {}
            Kind::Read | Kind::Write | Kind::SingleRead | Kind::SingleWrite => {}
        }
        self.seen[event.task] = true;
        Ok(())
    }
}

/// Reads a file: refusals 1 to 8 and 16.
pub fn read(file: &[u8]) -> Result<Recording<'_>, Refusal> {
    let (body, end) = file.split_last_chunk::<16>().ok_or(Refusal::Short)?;
    let trailer = Trailer::of(end);
    if !(1..=3).contains(&trailer.edition) {
        return Err(Refusal::Edition);
    }
    let levels_at = trailer.start + 4 * trailer.records;
    if levels_at + trailer.start_bytes() + trailer.flags != body.len() {
        return Err(Refusal::Extent);
    }
    if !trailer.in_range() {
        return Err(Refusal::Count);
    }
    let (starts, posts) = body[levels_at..].split_at(trailer.start_bytes());
    if posts.contains(&0) {
        return Err(Refusal::Count);
    }
    let mut rules = Rules::new(&trailer, starts, posts);
    let mut events = Vec::with_capacity(trailer.records);
    let records = body[trailer.start..levels_at].chunks_exact(4);
    for (e, bytes) in records.enumerate() {
        let event = trailer.event_of(bytes, e)?;
        rules.take(&event, e)?;
        events.push(event);
    }
    Ok(Recording {
        trailer,
        events,
        starts,
        posts,
    })
}

impl Recording<'_> {
    fn start_of(&self, semaphore: usize) -> usize {
        self.starts.get(semaphore).map_or(0, |&s| s as usize)
    }

    fn post_of(&self, flag: usize) -> usize {
        self.posts[flag] as usize
    }
}

// ---- what is gathered once a call

struct Gathered {
    positions: Vec<u16>,
    /// The event before in the task, or for the first one the fork.
    before: Vec<Option<usize>>,
    forks: Vec<Option<usize>>,
    lasts: Vec<Option<usize>>,
    signals: Vec<Vec<usize>>,
    waits: Vec<Vec<usize>>,
    posts: Vec<Vec<usize>>,
}

impl Gathered {
    fn of(recording: &Recording) -> Gathered {
        let trailer = &recording.trailer;
        let mut g = Gathered {
            positions: Vec::with_capacity(recording.events.len()),
            before: Vec::with_capacity(recording.events.len()),
            forks: vec![None; trailer.tasks],
            lasts: vec![None; trailer.tasks],
            signals: vec![Vec::new(); trailer.semaphores],
            waits: vec![Vec::new(); trailer.semaphores],
            posts: vec![Vec::new(); trailer.flags],
        };
        for (e, event) in recording.events.iter().enumerate() {
            g.add(e, event);
        }
        g
    }

    fn add(&mut self, e: usize, event: &Event) {
        let last = self.lasts[event.task];
        self.positions
            .push(last.map_or(1, |a| self.positions[a] + 1));
        self.before.push(last.or(self.forks[event.task]));
        self.lasts[event.task] = Some(e);
        match event.kind {
            Kind::Signal => self.signals[event.object].push(e),
            Kind::Wait => self.waits[event.object].push(e),
            Kind::Post => self.posts[event.object].push(e),
            Kind::Fork => self.forks[event.object] = Some(e),
            _ => {}
        }
    }

    /// The events whose vectors step 1 takes the largest of.
    fn sources(&self, e: usize, event: &Event) -> impl Iterator<Item = usize> {
        let joined = match event.kind {
            Kind::Join => [self.forks[event.object], self.lasts[event.object]],
            _ => [None, None],
        };
        self.before[e]
            .into_iter()
            .chain(joined.into_iter().flatten())
    }
}

// ---- vectors: a row of T numbers for each event, in one slice

fn row(v: &[u16], e: usize, tasks: usize) -> &[u16] {
    &v[e * tasks..(e + 1) * tasks]
}

fn row_mut(v: &mut [u16], e: usize, tasks: usize) -> &mut [u16] {
    &mut v[e * tasks..(e + 1) * tasks]
}

fn raise_to(own: &mut [u16], other: &[u16]) {
    for (x, &y) in zip(own, other) {
        *x = (*x).max(y);
    }
}

/// The passes and the recorded run over one recording, with memory that is used again for each event.
struct Runner<'a> {
    recording: &'a Recording<'a>,
    gathered: &'a Gathered,
    tasks: usize,
    own: Vec<u16>,
    candidates: Vec<usize>,
    numbers: Vec<u16>,
}

impl<'a> Runner<'a> {
    fn new(recording: &'a Recording<'a>, gathered: &'a Gathered) -> Runner<'a> {
        let tasks = recording.trailer.tasks;
        Runner {
            recording,
            gathered,
            tasks,
            own: vec![0; tasks],
            candidates: Vec::new(),
            numbers: Vec::new(),
        }
    }

    /// The vectors at the start.
    fn start(&self, v: &mut [u16]) {
        v.fill(0);
        let rows = v.chunks_exact_mut(self.tasks);
        for ((own, event), &position) in
            zip(zip(rows, &self.recording.events), &self.gathered.positions)
        {
            own[event.task] = position;
        }
    }

    /// Step 1: the raised vector of e is kept in `own`.
    fn step_one(&mut self, v: &[u16], e: usize, event: &Event) {
        self.own.copy_from_slice(row(v, e, self.tasks));
        for source in self.gathered.sources(e, event) {
            raise_to(&mut self.own, row(v, source, self.tasks));
        }
    }

    /// k of a wait: 1 plus the waits ordered before it, lowered by the start count.
    fn needed(&self, e: usize, semaphore: usize) -> usize {
        let waits = &self.gathered.waits[semaphore];
        let before = waits
            .iter()
            .filter(|&&w| w != e && self.is_before(w))
            .count();
        (1 + before).saturating_sub(self.recording.start_of(semaphore))
    }

    /// Whether the raised vector has event a before its own event.
    fn is_before(&self, a: usize) -> bool {
        self.gathered.positions[a] <= self.own[self.recording.events[a].task]
    }

    /// Step 2: raises to the k-th least of those events that e is not ordered before.
    fn step_two(&mut self, v: &[u16], e: usize, task: usize, k: usize, serving: &[usize]) {
        let tasks = self.tasks;
        let position = self.gathered.positions[e];
        self.candidates.clear();
        self.candidates
            .extend(serving.iter().filter(|&&s| v[s * tasks + task] < position));
        if k == 0 || self.candidates.len() < k {
            return;
        }
        for (t, own) in self.own.iter_mut().enumerate() {
            self.numbers.clear();
            self.numbers
                .extend(self.candidates.iter().map(|&s| v[s * tasks + t]));
            let (_, kth, _) = self.numbers.select_nth_unstable(k - 1);
            *own = (*own).max(*kth);
        }
    }

    /// Raises event e by both steps. Answers whether its vector changed.
    fn raise(&mut self, v: &mut [u16], e: usize, event: &Event) -> bool {
        let gathered = self.gathered;
        let x = event.object;
        self.step_one(v, e, event);
        match event.kind {
            Kind::Wait => self.step_two(v, e, event.task, self.needed(e, x), &gathered.signals[x]),
            Kind::FlagWait => self.step_two(
                v,
                e,
                event.task,
                self.recording.post_of(x),
                &gathered.posts[x],
            ),
            _ => {}
        }
        let old = row_mut(v, e, self.tasks);
        let changed = *old != *self.own;
        old.copy_from_slice(&self.own);
        changed
    }

    /// One pass. Answers whether any vector changed.
    fn pass(&mut self, v: &mut [u16]) -> bool {
        let mut changed = false;
        for (e, event) in self.recording.events.iter().enumerate() {
            changed |= self.raise(v, e, event);
        }
        changed
    }

    /// Passes until the budget is spent or one is quiet: passes made, and whether they settled.
    fn run(&mut self, v: &mut [u16], budget: u32) -> (u32, bool) {
        self.start(v);
        for made in 1..=budget {
            if !self.pass(v) {
                return (made, true);
            }
        }
        (budget, false)
    }

    /// The recorded run.
    fn record(&mut self, v: &mut [u16]) {
        self.start(v);
        let gathered = self.gathered;
        let mut waits = vec![0; self.recording.trailer.semaphores];
        for (e, event) in self.recording.events.iter().enumerate() {
            let x = event.object;
            self.step_one(v, e, event);
            if event.kind == Kind::Wait {
                if let Some(i) = usize::checked_sub(waits[x], self.recording.start_of(x)) {
                    raise_to(&mut self.own, row(v, gathered.signals[x][i], self.tasks));
                }
                waits[x] += 1;
            } else if event.kind == Kind::FlagWait {
                for &post in &gathered.posts[x][..self.recording.post_of(x)] {
                    raise_to(&mut self.own, row(v, post, self.tasks));
                }
            }
            row_mut(v, e, self.tasks).copy_from_slice(&self.own);
        }
    }
}

// ---- the list

struct Lister<'a> {
    recording: &'a Recording<'a>,
    positions: &'a [u16],
    safe: &'a [u16],
    recorded: &'a [u16],
}

impl Lister<'_> {
    fn ordered(&self, v: &[u16], a: usize, b: usize) -> bool {
        let tasks = self.recording.trailer.tasks;
        self.positions[a] <= v[b * tasks + self.recording.events[a].task]
    }

    fn unordered(&self, v: &[u16], a: usize, b: usize) -> bool {
        !self.ordered(v, a, b) && !self.ordered(v, b, a)
    }

    /// Whether two accesses to one cell conflict.
    fn conflict(&self, a: usize, b: usize) -> bool {
        let (x, y) = (self.recording.events[a], self.recording.events[b]);
        let writes = x.kind.is_write() || y.kind.is_write();
        x.task != y.task && writes && !(x.kind.is_single() && y.kind.is_single())
    }

    /// The accesses by cell, then task, then position.
    fn accesses(&self) -> Vec<usize> {
        let events = &self.recording.events;
        let is_access = |&e: &usize| events[e].kind.is_access();
        let mut accesses: Vec<usize> = (0..events.len()).filter(is_access).collect();
        accesses.sort_unstable_by_key(|&e| (events[e].object, events[e].task, e));
        accesses
    }

    /// Adds the entries of one cell's accesses: the event of the lower task, that of the higher task, mark.
    fn add_cell(&self, cell: &[usize], entries: &mut Vec<[u16; 3]>) {
        for (i, &a) in cell.iter().enumerate() {
            for &b in &cell[i + 1..] {
                if self.conflict(a, b) && self.unordered(self.safe, a, b) {
                    let sure = self.unordered(self.recorded, a, b);
                    entries.push([a as u16, b as u16, sure as u16]);
                }
            }
        }
    }

    fn entries(&self) -> Vec<[u16; 3]> {
        let cell = |e: usize| self.recording.events[e].object;
        let mut entries = Vec::new();
        for accesses in self.accesses().chunk_by(|&a, &b| cell(a) == cell(b)) {
            self.add_cell(accesses, &mut entries);
        }
        entries
    }
}

// ---- analysing

pub struct Analysis {
    pub passes: u32,
    pub settled: bool,
    pub pairs: usize,
}

/// Analyses a file: the file's refusals, then 9 and 10.
pub fn analyse(
    file: &[u8],
    budget: u32,
    work: &mut [u16],
    list: &mut [u16],
) -> Result<Analysis, Refusal> {
    let recording = read(file)?;
    let half = recording.events.len() * recording.trailer.tasks;
    if work.len() < 2 * half {
        return Err(Refusal::Work);
    }
    let (safe, rest) = work.split_at_mut(half);
    let recorded = &mut rest[..half];
    let gathered = Gathered::of(&recording);
    let mut runner = Runner::new(&recording, &gathered);
    let (passes, settled) = runner.run(safe, budget);
    runner.record(recorded);
    let lister = Lister {
        recording: &recording,
        positions: &gathered.positions,
        safe,
        recorded,
    };
    let entries = lister.entries();
    let pairs = entries.len();
    let lent = list.get_mut(..3 * pairs).ok_or(Refusal::List(pairs))?;
    lent.copy_from_slice(entries.as_flattened());
    Ok(Analysis {
        passes,
        settled,
        pairs,
    })
}
