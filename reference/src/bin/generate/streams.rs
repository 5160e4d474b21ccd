//! Streams of every kind.

use crate::programs::{bytes, muddle as muddled, value, Maker};
use crate::random::Random;
use crate::sheets::{self, draft, harm, level, odd_level, record, small, written, Any, Sizes};
use reference::bundle::Order;
use reference::lattice::Lattice;
use reference::policy::Policy;
use reference::program;
use reference::record::{Record, Refusal};
use reference::sheet::{self, Declared, Permit, Sheet, Variable};

/// A stream under way, over one lattice.
pub struct Stream<'r> {
    random: &'r mut Random,
    lattice: Any,
    records: Vec<Record>,
    images: usize,
}

/// What a program is to be refused by: the rule, and which kind of detail.
#[derive(Clone, Copy)]
pub struct Wanted {
    pub rule: u32,
    pub least: u32,
    pub most: u32,
}

impl Wanted {
    fn meets(self, answer: Result<(), Refusal>) -> bool {
        match answer {
            Ok(()) => false,
            Err(refusal) => refusal.rule == self.rule && (self.least..=self.most).contains(&refusal.detail),
        }
    }
}

pub fn begin(random: &mut Random, order: Order) -> Stream<'_> {
    Stream { random, lattice: Any(order), records: Vec::new(), images: 0 }
}

impl Stream<'_> {
    pub fn bytes(&self) -> Vec<u8> {
        bytes(&self.records)
    }

    fn call(&mut self, letter: u8, a: u8, n: u32) {
        self.records.push(record(letter, a, 0, 0, n));
    }

    fn announced(&mut self, letter: u8, records: &[Record]) {
        self.call(letter, 0, records.len() as u32);
        self.records.extend(records);
    }

    fn accepted_sheet(&mut self, sizes: Sizes) -> Declared {
        let declared = draft(self.random, self.lattice, sizes);
        self.announced(b'h', &written(&declared));
        declared
    }

    fn program(&mut self, sheet: &Sheet, most: usize) {
        let mut maker = Maker::new(sheet);
        maker.fill(self.random, most);
        self.announced(b'l', &maker.closed());
    }

    fn turns(&mut self) -> u32 {
        match self.random.below(6) {
            0 => self.random.below(4) as u32,
            1 => self.random.below(500) as u32,
            _ => self.random.below(40) as u32,
        }
    }

    /// A call that is likely to be accepted.
    fn likely(&mut self, declared: &Declared) {
        let variable = self.random.below(declared.variables.len().max(1)) as u8;
        let condition = self.random.below(declared.conditions.len().max(1)) as u8;
        let highest = self.lattice.highest();
        match self.random.below(12) {
            0..=2 => {
                let value = value(self.random) as u32;
                self.call(b'f', variable, value);
            }
            3 => self.call(b'u', condition, 0),
            4 => self.call(b'd', condition, 0),
            5..=6 => {
                let turns = self.turns();
                self.call(b'p', 0, turns);
            }
            7..=9 => {
                let present =
                    declared.variables.get(usize::from(variable)).map(|v| v.policy.present_level(self.lattice));
                let level = if self.random.once_in(2) { highest } else { present.unwrap_or(highest) };
                self.call(b'k', variable, level);
            }
            10 => {
                let own = declared.conditions.get(usize::from(condition)).copied();
                let level = if self.random.once_in(2) { highest } else { own.unwrap_or(highest) };
                self.call(b'q', condition, level);
            }
            _ if self.images > 0 => {
                self.images -= 1;
                self.call(b'i', 0, highest);
            }
            _ => self.call(b'p', 0, 0),
        }
    }

    /// A call with odd arguments.
    fn odd(&mut self, declared: &Declared) {
        let beyond = [declared.variables.len(), declared.conditions.len(), 16, 64, 255, 0, 1];
        let number = self.random.pick(&beyond) as u8;
        let odd = odd_level(self.random, self.lattice);
        let own = level(self.random, self.lattice);
        let level = if self.random.once_in(3) { odd } else { own };
        match self.random.below(9) {
            0 => self.call(b'f', number, level),
            1 => self.call(b'u', number, 0),
            2 => self.call(b'd', number, 0),
            3 | 4 => self.call(b'k', number, level),
            5 | 6 => self.call(b'q', number, level),
            7 if self.images > 0 || !self.lattice.known(level) => {
                self.images = self.images.saturating_sub(1);
                self.call(b'i', 0, level);
            }
            7 => {
                let unknown = self.random.pick(&[65_536, 0xFFFF_FFFF]);
                self.call(b'i', 0, unknown);
            }
            _ => {
                let records = written(declared);
                let some = self.random.below(records.len() + 1).min(4);
                self.announced(self.pick_announced(), &records[..some]);
            }
        }
    }

    fn pick_announced(&self) -> u8 {
        if self.records.len().is_multiple_of(2) {
            b'h'
        } else {
            b'l'
        }
    }

    /// Looks at the values of all variables.
    fn looks(&mut self, declared: &Declared) {
        for variable in 0..declared.variables.len().min(6) {
            self.call(b'k', variable as u8, self.lattice.highest());
        }
    }

    fn kept(&self, declared: &Declared) -> Sheet {
        Sheet::of(self.lattice, declared)
    }
}

/// A good sheet, good programs, and calls most of which are accepted.
pub fn good(stream: &mut Stream, images: usize) {
    stream.images = images;
    let sizes = small(stream.random);
    let declared = stream.accepted_sheet(sizes);
    let sheet = stream.kept(&declared);
    let most = stream.random.pick(&[1, 3, 5, 8, 8, 12, 16, 24]);
    stream.program(&sheet, most);
    for variable in 0..declared.variables.len() {
        if declared.variables[variable].fed && stream.random.once_in(2) {
            let value = value(stream.random) as u32;
            stream.call(b'f', variable as u8, value);
        }
    }
    for _ in 0..stream.random.between(4, 12) {
        stream.likely(&declared);
    }
    if stream.random.once_in(4) {
        stream.program(&sheet, 6);
    }
    let turns = stream.turns();
    stream.call(b'p', 0, turns);
    stream.looks(&declared);
    if images > 0 {
        stream.call(b'i', 0, stream.lattice.highest());
    }
}

/// A sheet that is refused by the rule; then a good one, to see that nothing was changed.
pub fn refused_sheet(stream: &mut Stream, rule: u32) {
    let wanted = Wanted { rule, least: 0, most: u32::MAX };
    for _ in 0..2_000 {
        let sizes = small(stream.random);
        let mut records = written(&draft(stream.random, stream.lattice, sizes));
        harm(stream.random, stream.lattice, rule, &mut records);
        if wanted.meets(sheet::read(stream.lattice, &bytes(&records)).map(|_| ())) {
            stream.announced(b'h', &records);
            break;
        }
    }
    after_refused_sheet(stream);
}

/// A sheet with a record that may break several rules at once.
pub fn muddled_sheet(stream: &mut Stream) {
    let sizes = small(stream.random);
    let mut records = written(&draft(stream.random, stream.lattice, sizes));
    for _ in 0..stream.random.between(1, 2) {
        sheets::muddle(stream.random, stream.lattice, &mut records);
    }
    stream.announced(b'h', &records);
    after_refused_sheet(stream);
}

fn after_refused_sheet(stream: &mut Stream) {
    if stream.random.once_in(3) {
        let turns = stream.turns();
        stream.call(b'p', 0, turns);
    }
    if stream.random.once_in(2) {
        let declared = stream.accepted_sheet(Sizes { conditions: 1, variables: 2, permits: 0, depth: 2 });
        stream.likely(&declared);
        stream.looks(&declared);
    }
}

/// A program that is refused; then a pass of the one before.
pub fn refused_program(stream: &mut Stream, wanted: Wanted) {
    for _ in 0..300 {
        let mut sizes = small(stream.random);
        if wanted.least >= 512 || wanted.rule == 18 {
            sizes.permits = 2;
        }
        let declared = draft(stream.random, stream.lattice, sizes);
        let sheet = stream.kept(&declared);
        if let Some(records) = refused_records(stream, &sheet, wanted) {
            stream.announced(b'h', &written(&declared));
            finish_refused(stream, &declared, &sheet, &records);
            return;
        }
    }
}

fn refused_records(stream: &mut Stream, sheet: &Sheet, wanted: Wanted) -> Option<Vec<Record>> {
    let mut maker = Maker::new(sheet);
    let most = stream.random.below(10);
    maker.fill(stream.random, most);
    if wanted.rule == 12 && stream.random.once_in(3) {
        let records = maker.records.clone();
        return wanted.meets(program::read(sheet, &bytes(&records)).map(|_| ())).then_some(records);
    }
    for _ in 0..60 {
        let candidate = maker.candidate(stream.random);
        let next = if wanted.rule < 16 { muddled(stream.random, candidate) } else { candidate };
        if wanted.meets(maker.tried(next)) {
            let mut records = maker.records.clone();
            records.push(next);
            if stream.random.once_in(2) {
                records.push(maker.candidate(stream.random));
            }
            return Some(records);
        }
    }
    None
}

fn finish_refused(stream: &mut Stream, declared: &Declared, sheet: &Sheet, records: &[Record]) {
    if stream.random.once_in(2) {
        stream.program(sheet, 4);
    }
    stream.announced(b'l', records);
    let turns = stream.turns();
    stream.call(b'p', 0, turns);
    stream.looks(declared);
}

/// A program with a record that may break several rules at once.
pub fn muddled_program(stream: &mut Stream) {
    let sizes = small(stream.random);
    let declared = stream.accepted_sheet(sizes);
    let sheet = stream.kept(&declared);
    let mut maker = Maker::new(&sheet);
    let most = stream.random.below(10);
    maker.fill(stream.random, most);
    let mut records = maker.closed();
    let at = stream.random.below(records.len() + 1);
    let candidate = maker.candidate(stream.random);
    let odd = muddled(stream.random, candidate);
    if stream.random.once_in(2) && at < records.len() {
        records[at] = muddled(stream.random, records[at]);
    } else {
        records.insert(at, odd);
    }
    finish_refused(stream, &declared, &sheet, &records);
}

/// More than eight commands open at once, or just eight.
pub fn nested(stream: &mut Stream) {
    let declared = stream.accepted_sheet(Sizes { conditions: 2, variables: 3, permits: 1, depth: 1 });
    let sheet = stream.kept(&declared);
    let mut maker = Maker::new(&sheet);
    let wanted = stream.random.pick(&[7, 8, 8, 9]);
    let mut opened = 0;
    for _ in 0..400 {
        let next = maker.candidate(stream.random);
        if opened < wanted && matches!(next.letter, b'I' | b'Q' | b'W') {
            if opened == 8 && maker.tried(next).is_err() {
                maker.records.push(next);
                break;
            }
            opened += usize::from(maker.push(next));
        } else if stream.random.once_in(12) {
            maker.push(next);
        }
    }
    let records =
        if opened == 8 && maker.records.len().is_multiple_of(2) { maker.closed() } else { maker.records.clone() };
    stream.announced(b'l', &records);
    let closed = maker.closed();
    stream.announced(b'l', &closed);
    for _ in 0..3 {
        stream.likely(&declared);
    }
    let turns = stream.turns();
    stream.call(b'p', 0, turns);
    stream.looks(&declared);
}

/// Calls before the sheet, odd calls, sheets after the sheet.
pub fn odd_calls(stream: &mut Stream) {
    stream.images = 1;
    let sizes = small(stream.random);
    let nothing = Declared::default();
    for _ in 0..stream.random.below(3) {
        stream.odd(&nothing);
    }
    let declared = stream.accepted_sheet(sizes);
    let sheet = stream.kept(&declared);
    for _ in 0..stream.random.between(3, 9) {
        if stream.random.once_in(4) {
            stream.likely(&declared);
        }
        stream.odd(&declared);
    }
    if stream.random.once_in(2) {
        stream.program(&sheet, 4);
        stream.likely(&declared);
        stream.odd(&declared);
    }
}

/// A good stream with some of its bytes changed.
pub fn damaged(stream: &mut Stream) -> Vec<u8> {
    good(stream, 0);
    let mut bytes = stream.bytes();
    for _ in 0..stream.random.between(1, 3) {
        let at = stream.random.below(bytes.len());
        bytes[at] = match stream.random.below(3) {
            0 => bytes[at] ^ 1 << stream.random.below(8),
            1 => stream.random.pick(&[0, 1, 2, 255]),
            _ => stream.random.next() as u8,
        };
    }
    bytes
}

/// A good stream that breaks off.
pub fn broken_off(stream: &mut Stream) -> Vec<u8> {
    good(stream, 0);
    let mut bytes = stream.bytes();
    let length = stream.random.below(bytes.len() + 1);
    bytes.truncate(if stream.random.once_in(2) { length } else { length / 8 * 8 });
    bytes
}

/// A call's record that the stream itself does not take.
pub fn no_call(stream: &mut Stream) {
    let declared = stream.accepted_sheet(Sizes { conditions: 1, variables: 2, permits: 0, depth: 2 });
    stream.likely(&declared);
    let mut next = record(stream.random.pick(b"hlfudpkqi"), 0, 0, 0, 0);
    match stream.random.below(6) {
        0 => next.letter = stream.random.pick(b"HLFUDPKQIagx\x00\xFF"),
        1 => next.a = stream.random.pick(&[1, 255]),
        2 => next.b = stream.random.pick(&[1, 255]),
        3 => next.c = stream.random.pick(&[1, 255]),
        4 => next.n = stream.random.pick(&[1, 256, 0x2000_0000, 0xFFFF_FFFF]),
        _ => next.n = stream.random.between(1, 6) as u32,
    }
    stream.records.push(next);
    for _ in 0..3 {
        stream.likely(&declared);
    }
}

/// More records than a sheet or a program may have, all of them there.
pub fn over_long(stream: &mut Stream, letter: u8, count: usize, first: bool) {
    let declared = draft(stream.random, stream.lattice, Sizes { conditions: 2, variables: 3, permits: 0, depth: 2 });
    let filler = vec![record(if letter == b'h' { b'C' } else { b'U' }, 0, 0, 0, 0); count];
    if first {
        stream.announced(b'h', &written(&declared));
    }
    stream.announced(letter, &filler);
    if !first {
        stream.announced(b'h', &written(&declared));
    }
    stream.call(b'p', 0, 3);
    stream.looks(&declared);
}

/// Deep trees over few conditions and levels, and loads that ask which of them flow to which.
pub fn flows(stream: &mut Stream) {
    let lattice = stream.lattice;
    let levels: Vec<u32> = (0..3).map(|_| level(stream.random, lattice)).collect();
    let conditions = vec![lattice.lowest(); stream.random.between(1, 3)];
    let mut declared = Declared { conditions, ..Declared::default() };
    for _ in 0..4 {
        let depth = stream.random.between(1, 4).min(stream.random.between(2, 4));
        let policy = leafy(stream.random, &declared.conditions, depth, &levels);
        declared.variables.push(Variable { fed: true, policy });
    }
    stream.announced(b'h', &written(&declared));
    for _ in 0..8 {
        let (to, from) = (stream.random.below(4) as u8, stream.random.below(4) as u8);
        stream.announced(b'l', &[record(b'+', to, from, from, 0)]);
    }
}

/// A tree of the depth or less over the given levels.
fn leafy(random: &mut Random, conditions: &[u32], depth: usize, levels: &[u32]) -> Policy {
    if depth == 1 || random.once_in(5) {
        return Policy::Leaf(random.pick(levels));
    }
    Policy::Wiping {
        condition: random.below(conditions.len()) as u8,
        present: Box::new(leafy(random, conditions, depth - 1, levels)),
        later: Box::new(leafy(random, conditions, depth - 1, levels)),
    }
}

/// Sheets at their limits, and some that are too long by a few records.
pub fn wide_sheet(stream: &mut Stream, which: usize) {
    let lattice = stream.lattice;
    let lowest = lattice.lowest();
    let mut declared = Declared { conditions: vec![lowest; 16], ..Declared::default() };
    for condition in &mut declared.conditions[4..] {
        *condition = level(stream.random, lattice);
    }
    let (variables, permits, depth) = match which {
        0 => (64, 0, 3),
        1 => (32, 0, 4),
        2 => (64, 8, 1),
        3 => (30, 1, 4),
        _ => (63, 0, 3),
    };
    let levels: Vec<u32> = (0..3).map(|_| level(stream.random, lattice)).collect();
    for i in 0..variables {
        let conditions = if which == 0 { 4 } else { 16 };
        let depth = if which == 0 && i % 16 == 0 { 2 } else { depth };
        let policy = full(stream, &declared.conditions[..conditions], depth, &levels);
        declared.variables.push(Variable { fed: i % 3 != 0, policy });
    }
    for i in 0..permits {
        let from = full(stream, &declared.conditions, 2, &levels);
        let to = Policy::Leaf(lattice.highest());
        declared.permits.push(Permit { conditions: 1 << (2 * i) | 1 << 15, from, to });
    }
    wide_calls(stream, &declared);
}

/// A full tree whose wipers are below its present level where that can be had.
fn full(stream: &mut Stream, conditions: &[u32], depth: usize, levels: &[u32]) -> Policy {
    let lattice = stream.lattice;
    for _ in 0..60 {
        let policy = sheets::full(stream.random, conditions, depth, levels);
        let present = policy.present_level(lattice);
        let wipers = policy.wipers();
        if (0..conditions.len()).all(|c| wipers >> c & 1 == 0 || lattice.below(conditions[c], present)) {
            return policy;
        }
    }
    Policy::Leaf(levels[0])
}

fn wide_calls(stream: &mut Stream, declared: &Declared) {
    let records = written(declared);
    stream.announced(b'h', &records);
    let sheet = Sheet::of(stream.lattice, declared);
    stream.program(&sheet, 20);
    for _ in 0..12 {
        stream.likely(declared);
    }
    for variable in [0, 31, 62, 63, 64] {
        stream.call(b'f', variable, 5);
        stream.call(b'k', variable, stream.lattice.highest());
    }
    for condition in [0, 15, 16] {
        stream.call(b'u', condition, 0);
        stream.call(b'q', condition, stream.lattice.highest());
    }
    stream.call(b'p', 0, 50);
    stream.call(b'i', 0, stream.lattice.highest());
}

/// One declaration too many of a kind, and the most there may be.
pub fn one_more(stream: &mut Stream, letter: u8, count: usize) {
    let lowest = stream.lattice.lowest();
    let mut records = Vec::new();
    for i in 0..count {
        records.push(record(letter, i as u8, 0, 0, if letter == b'C' { lowest } else { 0 }));
        for _ in 0..match letter {
            b'V' => 1,
            b'R' => 2,
            _ => 0,
        } {
            records.push(record(b'L', 0, 0, 0, lowest));
        }
    }
    stream.announced(b'h', &records);
    stream.call(b'l', 0, 0);
    stream.call(b'p', 0, 1);
    stream.call(b'u', 15, 0);
    stream.call(b'k', 63, lowest);
}

/// Programs of 256 records, or one more.
pub fn long_program(stream: &mut Stream, count: usize) {
    let declared = stream.accepted_sheet(Sizes { conditions: 3, variables: 6, permits: 2, depth: 2 });
    let sheet = stream.kept(&declared);
    let mut maker = Maker::new(&sheet);
    maker.fill(stream.random, count.min(253));
    let mut records = maker.closed();
    let middle = record(b'I', 0, 0, 0, 0);
    while records.len() < count {
        match count - records.len() {
            1 => records.insert(0, record(b'S', low_variable(&sheet), 0, 0, 1)),
            2 => records.extend([record(b'W', 0, low_variable(&sheet), 0, 0), record(b'K', 0, 0, 0, 0)]),
            _ => records.extend([middle, record(b'J', 0, 0, 0, 0), record(b'K', 0, 0, 0, 0)]),
        }
    }
    stream.announced(b'l', &records);
    for _ in 0..4 {
        stream.likely(&declared);
    }
    let turns = stream.turns();
    stream.call(b'p', 0, turns);
    stream.looks(&declared);
}

fn low_variable(sheet: &Sheet) -> u8 {
    (sheet.low_variables.trailing_zeros() % 64) as u8
}

/// Releases by permits with several conditions, which come up and go down one by one.
pub fn releases(stream: &mut Stream) {
    let lattice = stream.lattice;
    let (low, high) = (lattice.lowest(), lattice.highest());
    let mut declared = Declared { conditions: vec![low; 3], ..Declared::default() };
    let secret =
        Policy::Wiping { condition: 2, present: Box::new(Policy::Leaf(low)), later: Box::new(Policy::Leaf(high)) };
    for policy in [secret.clone(), Policy::Leaf(low), secret.clone()] {
        declared.variables.push(Variable { fed: true, policy });
    }
    for _ in 0..2 {
        let conditions = stream.random.below(8) as u32 | 1 << stream.random.below(3);
        declared.permits.push(Permit { conditions, from: secret.clone(), to: Policy::Leaf(low) });
    }
    stream.announced(b'h', &written(&declared));
    let permit = stream.random.below(2) as u8;
    stream.announced(b'l', &[record(b'D', 1, 0, permit, 0), record(b'D', 2, 0, 1 - permit, 0)]);
    for _ in 0..stream.random.between(4, 9) {
        let value = value(stream.random) as u32;
        stream.call(b'f', 0, value);
        let letter = stream.random.pick(b"uud");
        let condition = stream.random.below(3) as u8;
        stream.call(letter, condition, 0);
        stream.call(b'p', 0, 0);
        stream.looks(&declared);
    }
}

/// Streams of records with call letters and small fields, in no order.
pub fn any_calls(stream: &mut Stream) {
    for _ in 0..stream.random.between(1, 20) {
        let letter = stream.random.pick(b"hhlfudpkqi");
        let a = if b"hlpi".contains(&letter) { 0 } else { stream.random.below(3) as u8 };
        let n = if b"ud".contains(&letter) { 0 } else { stream.random.below(3) as u32 };
        stream.call(letter, a, n);
        if matches!(letter, b'h' | b'l') {
            for _ in 0..n {
                let letter = stream.random.pick(b"CVRLESIJKWQU+x");
                let next = record(letter, stream.random.below(2) as u8, 0, 0, 0);
                stream.records.push(next);
            }
        }
    }
}

/// Loops with many turns, up to the greatest number of turns there is.
pub fn long_loops(stream: &mut Stream) {
    let lowest = stream.lattice.lowest();
    let mut records = Vec::new();
    for i in 0..4 {
        records.push(record(b'V', i, 1, 0, 0));
        records.push(record(b'L', 0, 0, 0, lowest));
    }
    stream.announced(b'h', &records);
    let outer = stream.random.between(1, 60) as u32;
    let inner = stream.random.between(1, 60) as u32;
    let program = [
        record(b'S', 0, 0, 0, outer),
        record(b'S', 3, 0, 0, 1),
        record(b'W', 0, 0, 0, 0),
        record(b'S', 1, 0, 0, inner),
        record(b'W', 0, 1, 0, 0),
        record(b'-', 1, 1, 3, 0),
        record(b'+', 2, 2, 3, 0),
        record(b'K', 0, 0, 0, 0),
        record(b'-', 0, 0, 3, 0),
        record(b'K', 0, 0, 0, 0),
    ];
    stream.announced(b'l', &program);
    let needed = outer * (inner + 1);
    let within = stream.random.below(needed as usize) as u32;
    for turns in [needed, needed - 1, needed + 1, within, u32::MAX] {
        stream.call(b'p', 0, turns);
        for variable in 0..3 {
            stream.call(b'k', variable, lowest);
        }
    }
}
