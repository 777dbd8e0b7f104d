//! Charge records to be read: in range, their fields often at its edges, and damaged ones.

use super::random::Random;
use crate::model::record::record_at;
use crate::numbers::put;

/// What is asked of both sides: the record at an offset of a statement, and fields of so many bytes.
#[derive(Clone, Debug)]
pub struct Asked {
    pub statement: Vec<u8>,
    pub at: usize,
    pub room: usize,
    /// How it was made, for whoever reads about a difference.
    pub story: Vec<&'static str>,
}

/// Values of a field inside its range and outside it.
pub struct Edges {
    pub name: &'static str,
    pub inside: &'static [u64],
    pub outside: &'static [u64],
}

/// Opening, area, kilometres, minutes, in the order of [`Draft::head`].
pub const HEAD: [Edges; 4] = [
    Edges {
        name: "the opening",
        inside: &[0, 1, 14_113_370, 52_595_998, 52_595_999],
        outside: &[52_596_000, 52_596_001, 1 << 26, (1 << 32) - 1],
    },
    Edges { name: "the area", inside: &[0, 1, 30, 31], outside: &[32, 33, 64, 254, 255] },
    Edges { name: "the kilometres", inside: &[0, 1, 256, 1_414, 1_415], outside: &[1_416, 1_417, 4_096, 65_535] },
    Edges { name: "the minutes", inside: &[0, 1, 255, 1_439, 1_440], outside: &[1_441, 1_442, 2_048, 65_535] },
];
pub const HEAD_WIDTHS: [usize; 4] = [4, 1, 2, 2];

/// A charge that stands alone.
pub const ALONE: Edges = Edges {
    name: "a charge",
    inside: &[0, 1, 320, 65_536, 3_789_999, 3_790_000],
    outside: &[3_790_001, 3_790_002, 1 << 24, (1 << 32) - 1],
};

/// Charge, reduction, and the cap's area and class.
pub type Person = [u64; 4];

pub const PERSONS_INSIDE: [Person; 11] = [
    [0, 0, 255, 0],
    [320, 0, 255, 0],
    [3_790_000, 0, 255, 0],
    [0, 3_790_000, 31, 2],
    [3_789_999, 1, 0, 1],
    [1, 3_789_999, 31, 1],
    [120, 200, 0, 2],
    [70_000, 65_537, 17, 2],
    [0, 1, 30, 1],
    [0, 256, 1, 2],
    [1, 1, 31, 2],
];

/// Each one step outside: the sum, also one that 32 bits do not hold; a cap named where nothing was taken off; none where
/// something was.
pub const PERSONS_OUTSIDE: [Person; 23] = [
    [3_790_001, 0, 255, 0],
    [(1 << 32) - 1, 0, 255, 0],
    [0, 3_790_001, 31, 2],
    [3_790_000, 1, 0, 1],
    [1, 3_790_000, 0, 2],
    [1, (1 << 32) - 1, 0, 2],
    [(1 << 32) - 1, 1, 0, 2],
    [3_790_000, (1 << 32) - 3_790_000, 5, 1],
    [(1 << 32) - 1, (1 << 32) - 1, 5, 1],
    [0, 0, 0, 0],
    [0, 0, 31, 2],
    [320, 0, 0, 1],
    [320, 0, 255, 1],
    [320, 0, 255, 2],
    [320, 0, 254, 0],
    [120, 200, 255, 0],
    [120, 200, 255, 1],
    [120, 200, 255, 2],
    [120, 200, 32, 2],
    [120, 200, 31, 0],
    [120, 200, 31, 3],
    [120, 200, 0, 255],
    [120, 1, 254, 1],
];

/// A record of either kind, before it is bytes.
#[derive(Clone, Debug)]
pub struct Draft {
    pub head: [u64; 4],
    /// Adults, children, bicycles, as the record says; nothing in kind 4.
    pub party: Option<[u64; 3]>,
    pub persons: Vec<Person>,
    pub alone: Vec<u64>,
}

impl Draft {
    /// Of kind 4.
    pub fn alone(head: [u64; 4], charges: Vec<u64>) -> Draft {
        Draft { head, party: None, persons: Vec::new(), alone: charges }
    }

    /// In range.
    pub fn any(random: &mut Random) -> Draft {
        let head = HEAD.map(|edges| match edges.inside.last() {
            Some(last) if random.chance(50) => random.within(0, *last),
            _ => random.pick(edges.inside),
        });
        if random.chance(40) {
            let many = random.pick(&[1, 1, 2, 3, 7, 30, 31]);
            return Draft::alone(head, (0..many).map(|_| random.pick(ALONE.inside)).collect());
        }
        let party = [(); 3].map(|()| random.pick(&[0, 0, 0, 1, 1, 2, 9, 10]));
        Draft::alone(head, Vec::new()).with(random, party)
    }

    /// Of kind 6 with this party, and as many charges as it has.
    pub fn with(mut self, random: &mut Random, party: [u64; 3]) -> Draft {
        let [adults, children, bicycles] = party;
        self.party = Some(party);
        self.persons = (0..1 + adults + children).map(|_| random.pick(&PERSONS_INSIDE)).collect();
        self.alone = (0..bicycles).map(|_| random.pick(ALONE.inside)).collect();
        self
    }

    pub fn charges(&self) -> usize {
        self.persons.len() + self.alone.len()
    }

    /// The bytes that its fields take.
    pub fn fields(&self) -> usize {
        14 + 10 * self.charges()
    }

    pub fn body(&self) -> Vec<u8> {
        let mut body = Vec::new();
        for (width, value) in HEAD_WIDTHS.into_iter().zip(self.head) {
            put(&mut body, width, value);
        }
        for many in self.party.into_iter().flatten() {
            put(&mut body, 1, many);
        }
        for person in &self.persons {
            for (width, &value) in [4, 4, 1, 1].into_iter().zip(person) {
                put(&mut body, width, value);
            }
        }
        for &charge in &self.alone {
            put(&mut body, 4, charge);
        }
        body
    }

    pub fn bytes(&self) -> Vec<u8> {
        framed(if self.party.is_some() { 6 } else { 4 }, &self.body())
    }
}

/// A record of this kind with this body.
pub fn framed(kind: u64, body: &[u8]) -> Vec<u8> {
    let mut bytes = Vec::new();
    put(&mut bytes, 2, 2 + body.len() as u64);
    put(&mut bytes, 2, kind);
    [bytes, body.to_vec()].concat()
}

/// A record that may be damaged, at some offset of a statement, with fields of any length.
pub fn asked(random: &mut Random) -> Asked {
    let mut draft = Draft::any(random);
    let mut story = vec!["a record"];
    if random.chance(35) {
        outside(random, &mut draft, &mut story);
    }
    let mut record = draft.bytes();
    if random.chance(35) {
        damage(random, &draft, &mut record, &mut story);
    }
    let before = if random.chance(40) { some_bytes(random) } else { Vec::new() };
    let behind = if random.chance(40) { some_bytes(random) } else { Vec::new() };
    let at = before.len();
    let mut asked = Asked { statement: [before, record, behind].concat(), at, room: draft.fields(), story };
    if random.chance(20) {
        place(random, &mut asked);
    }
    if random.chance(35) {
        room(random, &mut asked);
    }
    asked
}

/// Records one after another, whole ones of any sort, some of them damaged; at times what stands at the end is no record.
pub fn some_statement(random: &mut Random) -> Vec<u8> {
    let many = random.pick(&[0, 1, 2, 5, 20, 120]);
    let mut statement = Vec::new();
    while statement.len() < 60_000 && statement.len() < 60 * many {
        let Asked { statement: bytes, at, .. } = asked(random);
        let record = bytes.get(at..).and_then(|rest| record_at(rest, 0).map(|record| &rest[..record.size()]));
        statement.extend(record.unwrap_or_default());
    }
    if random.chance(50) {
        statement.extend(some_bytes(random));
    }
    statement
}

/// A record, whole or not, or bytes of any sort.
fn some_bytes(random: &mut Random) -> Vec<u8> {
    match random.below(4) {
        0 => (0..random.below(40)).map(|_| random.next() as u8).collect(),
        1 => {
            let bytes = Draft::any(random).bytes();
            bytes[..random.index(bytes.len())].to_vec()
        }
        _ => Draft::any(random).bytes(),
    }
}

/// One field outside its range.
fn outside(random: &mut Random, draft: &mut Draft, story: &mut Vec<&'static str>) {
    match random.below(4) {
        0 => {
            let field = random.index(HEAD.len());
            draft.head[field] = random.pick(HEAD[field].outside);
            story.push(HEAD[field].name);
        }
        1 if draft.party.is_some() => {
            let mut party = draft.party.expect("kind 6");
            party[random.index(3)] = random.pick(&[11, 11, 12, 30, 60]);
            *draft = draft.clone().with(random, party);
            story.push("the party");
        }
        2 if !draft.alone.is_empty() => {
            let place = random.index(draft.alone.len());
            draft.alone[place] = random.pick(ALONE.outside);
            story.push(ALONE.name);
        }
        _ if !draft.persons.is_empty() => {
            let place = random.index(draft.persons.len());
            draft.persons[place] = random.pick(&PERSONS_OUTSIDE);
            story.push("a person's charge, or the cap beside it");
        }
        _ => {}
    }
}

/// The frame, the kind or the length.
fn damage(random: &mut Random, draft: &Draft, record: &mut Vec<u8>, story: &mut Vec<&'static str>) {
    let kind = if draft.party.is_some() { 6 } else { 4 };
    let mut body = draft.body();
    match random.below(8) {
        0 => {
            *record = framed(random.pick(&[0, 1, 2, 3, 4, 5, 6, 7, 8, 260, 262, 1_024, 1_536, 65_535]), &body);
            story.push("its kind");
        }
        1 => {
            let length = random.pick(&[0, 1, 2, 1_023, 1_024, 1_025, 65_535]);
            record[..2].copy_from_slice(&(length as u16).to_le_bytes());
            story.push("its length alone");
        }
        2 => {
            body.truncate(random.index(body.len()).min(random.pick(&[8, 9, 11, 12, 13, 400])));
            *record = framed(kind, &body);
            story.push("a shorter body");
        }
        3 => {
            body.resize(body.len() + random.pick(&[1, 2, 3, 4, 6, 10, 14]), 0);
            *record = framed(kind, &body);
            story.push("a longer body");
        }
        4 => {
            let many = random.pick(&[0, 31, 32, 32, 33, 64, 253]);
            *record = Draft::alone(draft.head, vec![random.pick(ALONE.inside); many]).bytes();
            story.push("charges of kind 4");
        }
        5 => {
            record.truncate(random.index(record.len()));
            story.push("cut short");
        }
        6 => {
            let party = 13 + random.index(3);
            if party < record.len() {
                record[party] = random.pick(&[0, 1, 10, 11, 255]);
            }
            story.push("its party alone");
        }
        _ => {
            for _ in 0..random.within(1, 3) {
                let place = random.index(record.len());
                record[place] ^= 1 << random.below(8);
            }
            story.push("flipped bits");
        }
    }
}

/// Offsets inside the statement, at its end and beyond it.
fn place(random: &mut Random, asked: &mut Asked) {
    let length = asked.statement.len();
    asked.at = match random.below(6) {
        0 => length,
        1 => length + random.pick(&[1, 2, 4, 1_000]),
        2 => random.pick(&[usize::MAX, usize::MAX - 3, 1 << 63, 1 << 32]),
        3 => length.saturating_sub(random.pick(&[1, 2, 3, 4, 5])),
        _ => random.index(length + 1),
    };
    asked.story.push("another offset");
}

/// Fields too short, or longer than they have to be.
fn room(random: &mut Random, asked: &mut Asked) {
    let due = asked.room;
    asked.room = match random.below(6) {
        0 => 0,
        1 => random.pick(&[1, 4, 5, 13, 14]),
        2 | 3 => due - 1,
        4 => due + random.pick(&[1, 2, 9, 10]),
        _ => random.index(due),
    };
    asked.story.push("fields of another length");
}
