//! Pattern sets and schemes in memory, the ceilings, and refusals.

pub const PATTERNS: usize = 24;
pub const PATTERN_LENGTH: usize = 8;
pub const ENTRIES: usize = 128;
pub const PREFIX_LENGTH: usize = 6;
pub const VECTORS: usize = 8;
pub const COMPONENTS: usize = 7;
pub const VECTOR_TOTAL: usize = 8;
pub const LONGEST: usize = 20;
pub const LONGEST_PLAIN: usize = 9;
pub const LONGEST_BY_INVERSIONS: usize = 12;
pub const PATTERN_TEXT: usize = 1_024;
pub const SCHEME_TEXT: usize = 32_768;
/// The bytes of a witness on a lent page.
pub const WITNESS: usize = 32;

/// A list that keeps its first N items and the number of all of them, so that what is too long is
/// known to be so and takes no more room.
#[derive(Clone, Copy, Debug, PartialEq, Eq)]
pub struct Kept<T, const N: usize> {
    items: [T; N],
    count: usize,
}

impl<T: Copy + Default, const N: usize> Kept<T, N> {
    pub fn new() -> Self {
        Kept { items: [T::default(); N], count: 0 }
    }

    pub fn push(&mut self, item: T) {
        if self.count < N {
            self.items[self.count] = item;
        }
        self.count += 1;
    }

    /// The number of all items, those that are not kept among them.
    pub fn count(&self) -> usize {
        self.count
    }

    /// The items that are kept: all of them, where there are at most N.
    pub fn items(&self) -> &[T] {
        &self.items[..self.count.min(N)]
    }

    pub fn items_mut(&mut self) -> &mut [T] {
        &mut self.items[..self.count.min(N)]
    }

    pub fn remove(&mut self, at: usize) {
        assert!(at < self.count && self.count <= N);
        self.items.copy_within(at + 1..self.count, at);
        self.count -= 1;
        self.items[self.count] = T::default();
    }

    pub fn of(items: &[T]) -> Self {
        let mut list = Self::new();
        for &item in items {
            list.push(item);
        }
        list
    }
}

impl<T: Copy + Default, const N: usize> Default for Kept<T, N> {
    fn default() -> Self {
        Self::new()
    }
}

pub type Pattern = Kept<u8, PATTERN_LENGTH>;
pub type Prefix = Kept<u8, PREFIX_LENGTH>;
pub type Vector = Kept<u16, COMPONENTS>;
pub type Patterns = Kept<Pattern, PATTERNS>;
/// The positions of a copy, counted from 1.
pub type Positions = Kept<u8, PATTERN_LENGTH>;
/// A permutation that a witness shows: a prefix and as many values as a compared spacing has.
pub type Shown = Kept<u8, { PREFIX_LENGTH + PATTERN_LENGTH - 1 }>;

/// The positions that an entry deletes together, as they are written. A set of more than six is
/// kept in part only; no prefix has so many positions.
pub type Deletion = Kept<u16, PREFIX_LENGTH>;

#[derive(Clone, Copy, Debug, PartialEq, Eq, Default)]
pub enum Rule {
    #[default]
    Expand,
    Delete(Deletion),
}

impl Rule {
    /// The rule that deletes some positions together.
    pub fn deleting(positions: &[u16]) -> Rule {
        Rule::Delete(Deletion::of(positions))
    }

    /// How many positions it deletes.
    pub fn size(&self) -> usize {
        match self {
            Rule::Expand => 0,
            Rule::Delete(set) => set.count(),
        }
    }
}

#[derive(Clone, Copy, Debug, PartialEq, Eq, Default)]
pub struct Entry {
    pub prefix: Prefix,
    pub vectors: Kept<Vector, VECTORS>,
    pub rule: Rule,
}

/// A scheme: its first 128 entries, and the number of all.
#[derive(Clone, Debug, PartialEq, Eq, Default)]
pub struct Scheme {
    pub entries: Vec<Entry>,
    pub count: usize,
}

impl Scheme {
    pub fn push(&mut self, entry: Entry) {
        if self.entries.len() < ENTRIES {
            self.entries.push(entry);
        }
        self.count += 1;
    }

    pub fn of(entries: &[Entry]) -> Scheme {
        let mut scheme = Scheme::default();
        for &entry in entries {
            scheme.push(entry);
        }
        scheme
    }
}

/// The number of a refusal in document 01, and its index.
#[derive(Clone, Copy, Debug, PartialEq, Eq)]
pub struct Refusal(pub u32, pub usize);

pub const MISSPELT: u32 = 1;
pub const OVERSIZE: u32 = 2;
pub const NO_PERMUTATION: u32 = 3;
pub const REPEATED: u32 = 4;
pub const ROOTLESS: u32 = 5;
pub const WIDTH: u32 = 6;
pub const NO_POSITION: u32 = 7;
pub const CHILDLESS: u32 = 8;
pub const NO_TARGET: u32 = 9;
pub const LIVE_GAP: u32 = 10;
pub const IRREVERSIBLE: u32 = 11;
pub const SHORT_TABLE: u32 = 12;
pub const SHORT_PAGE: u32 = 13;
pub const CONTAINS: u32 = 14;
