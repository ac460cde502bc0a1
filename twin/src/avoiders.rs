//! Avoiders in lexicographic order: the first of a length, and the next after an avoider.

use crate::judging::{avoids, basis};
use crate::model::*;
use crate::notation::read_patterns;
use crate::word::{copy_through, ends_copy, is_permutation};

/// The words that each search may look at in the first turn; from turn to turn they double.
const FIRST_TURN: u64 = 32;
/// From this turn on appending also looks at pairs of unused values: up to 380 tests for a copy of
/// a pattern a word, which do not pay where a few words decide.
const PAIRS_TURN: u64 = 256;

/// Whether an avoider is given, or a refusal.
pub type Answer = Result<bool, Refusal>;

/// The first avoider of length n of the set that a text spells: whether there is one, or a refusal.
/// Its entries stand at the front of the page; all other bytes, and all bytes where there is none
/// or with a refusal, are untouched.
pub fn first_avoider(patterns: &[u8], n: usize, page: &mut [u8]) -> Answer {
    first_within(patterns, n, page, &mut Effort::unlimited()).unwrap_or_else(no_limit)
}

/// The avoider of the same length that comes next: whether there is one, or a refusal. The page is
/// written as for the first.
pub fn next_avoider(patterns: &[u8], permutation: &[u8], page: &mut [u8]) -> Answer {
    next_within(patterns, permutation, page, &mut Effort::unlimited()).unwrap_or_else(no_limit)
}

fn no_limit<T>(_: Exhausted) -> T {
    unreachable!("there is no limit")
}

/// `first_avoider` by searches that give up after an effort.
pub fn first_within(patterns: &[u8], n: usize, page: &mut [u8], effort: &mut Effort) -> Limited<Answer> {
    match read_patterns(patterns).and_then(|p| test_first(p, n, page)) {
        Err(refusal) => Ok(Err(refusal)),
        Ok(patterns) => {
            let found = Search::new(patterns.items(), n, effort).first()?;
            Ok(Ok(write(found, n, page)))
        }
    }
}

/// `next_avoider` by searches that give up after an effort.
pub fn next_within(patterns: &[u8], permutation: &[u8], page: &mut [u8], effort: &mut Effort) -> Limited<Answer> {
    match read_patterns(patterns).and_then(|p| test_next(p, permutation, page)) {
        Err(refusal) => Ok(Err(refusal)),
        Ok(patterns) => {
            let n = permutation.len();
            let mut word = [0; LONGEST];
            word[..n].copy_from_slice(permutation);
            let found = Search::new(patterns.items(), n, effort).next(word)?;
            Ok(Ok(write(found, n, page)))
        }
    }
}

fn test_first(patterns: Patterns, n: usize, page: &[u8]) -> Result<Patterns, Refusal> {
    if n > LONGEST {
        return Err(Refusal(OVERSIZE, 0));
    }
    test_page(n, page).map(|_| patterns)
}

fn test_next(patterns: Patterns, permutation: &[u8], page: &[u8]) -> Result<Patterns, Refusal> {
    if permutation.len() > LONGEST {
        return Err(Refusal(OVERSIZE, 0));
    }
    if !is_permutation(permutation) {
        return Err(Refusal(NO_PERMUTATION, 0));
    }
    if !avoids(patterns.items(), permutation) {
        return Err(Refusal(CONTAINS, 0));
    }
    test_page(permutation.len(), page).map(|_| patterns)
}

/// The last test, whatever the answer would be.
fn test_page(n: usize, page: &[u8]) -> Result<(), Refusal> {
    if page.len() < n {
        return Err(Refusal(SHORT_PAGE, 0));
    }
    Ok(())
}

/// Writes the entries of an avoider to the front of the page, if there is one; whether there is.
fn write(found: Option<Word>, n: usize, page: &mut [u8]) -> bool {
    if let Some(word) = found {
        page[..n].copy_from_slice(&word[..n]);
    }
    found.is_some()
}

/// A number of words that the searches may look at altogether, and those that they have looked at.
#[derive(Clone, Copy, Debug)]
pub struct Effort {
    pub limit: u64,
    pub words: u64,
    /// how often it was asked whether a word can be completed
    pub questions: u64,
}

/// The searches gave up.
#[derive(Clone, Copy, Debug, PartialEq, Eq)]
pub struct Exhausted;
pub type Limited<T> = Result<T, Exhausted>;

impl Effort {
    pub fn of(limit: u64) -> Effort {
        Effort { limit, words: 0, questions: 0 }
    }

    fn unlimited() -> Effort {
        Effort::of(u64::MAX)
    }

    fn is_spent(&self) -> bool {
        self.words >= self.limit
    }
}

/// A permutation: the entries of a word and, behind them, the values that are not used yet.
pub type Word = [u8; LONGEST];

/// The searches, in the order of their turns.
#[derive(Clone, Copy)]
enum Kind {
    Append,
    LargestDown,
    SmallestUp,
}
const KINDS: [Kind; 3] = [Kind::Append, Kind::LargestDown, Kind::SmallestUp];

/// What a search says when its turn ends.
enum Outcome {
    Found(Word),
    Nothing,
    Undecided,
}

pub struct Search<'a> {
    basis: Vec<Pattern>,
    n: usize,
    /// the lengths of the shortest increasing and the shortest decreasing pattern, if the set has
    /// both
    monotone: Option<(usize, usize)>,
    effort: &'a mut Effort,
    /// the words that the search at work may still look at in this turn
    left: u64,
    /// whether pairs of unused values are looked at in this turn
    pairs: bool,
}

impl Search<'_> {
    pub fn new<'a>(patterns: &[Pattern], n: usize, effort: &'a mut Effort) -> Search<'a> {
        let basis = basis(patterns);
        let shortest = |rises: bool| {
            let follows = |w: &[u8]| (w[0] < w[1]) == rises;
            let kind = basis.iter().filter(|p| p.items().windows(2).all(follows));
            kind.map(|p| p.count()).min()
        };
        let monotone = shortest(true).zip(shortest(false));
        Search { basis, n, monotone, effort, left: 0, pairs: false }
    }

    /// The first avoider of length n.
    pub fn first(&mut self) -> Limited<Option<Word>> {
        match self.completion(self.identity(), 0)? {
            Some(completion) => self.least(completion, 0).map(Some),
            None => Ok(None),
        }
    }

    /// 1 to n.
    fn identity(&self) -> Word {
        let mut word = [0; LONGEST];
        word[..self.n].iter_mut().zip(1..).for_each(|(entry, value)| *entry = value);
        word
    }

    /// The next avoider after the word: it keeps the longest beginning that goes on with a greater
    /// value than the word does.
    pub fn next(&mut self, word: Word) -> Limited<Option<Word>> {
        for at in (0..self.n).rev() {
            for value in self.unused(&word, at) {
                if value < word[at] {
                    continue;
                }
                if let Some(completion) = self.completion(with(word, at, value), at + 1)? {
                    return self.least(completion, at + 1).map(Some);
                }
            }
        }
        Ok(None)
    }

    /// The first of the avoiders that begin as the given one does. A value below its entry is asked
    /// for; its entry needs no question, since the avoider itself answers it.
    fn least(&mut self, mut avoider: Word, from: usize) -> Limited<Word> {
        for at in from..self.n {
            for value in self.unused(&avoider, at) {
                if value > avoider[at] {
                    break;
                }
                if let Some(completion) = self.completion(with(avoider, at, value), at + 1)? {
                    avoider = completion;
                    break;
                }
            }
        }
        Ok(avoider)
    }

    /// The values behind the first entries other than the entry that stands next, ascending.
    fn unused(&self, word: &Word, length: usize) -> Vec<u8> {
        let mut values = word[length + 1..self.n].to_vec();
        values.sort_unstable();
        values
    }

    /// An avoider that begins with the first entries of the word, if there is one. Three searches
    /// take turns until one of them decides.
    pub fn completion(&mut self, mut word: Word, length: usize) -> Limited<Option<Word>> {
        self.effort.questions += 1;
        if !avoids(&self.basis, &word[..length]) {
            return Ok(None);
        }
        word[length..self.n].sort_unstable();
        let ascending = word;
        word[length..self.n].reverse();
        let descending = word;
        let mut turn = FIRST_TURN;
        loop {
            self.pairs = turn >= PAIRS_TURN;
            for kind in KINDS {
                self.left = turn;
                let outcome = match kind {
                    Kind::Append => self.append(&ascending, length),
                    Kind::LargestDown => self.put_in(&descending, length, length),
                    Kind::SmallestUp => self.put_in(&ascending, length, length),
                };
                match outcome {
                    Outcome::Found(avoider) => return Ok(Some(avoider)),
                    Outcome::Nothing => return Ok(None),
                    Outcome::Undecided if self.effort.is_spent() => return Err(Exhausted),
                    Outcome::Undecided => {}
                }
            }
            turn = turn.saturating_mul(2);
        }
    }

    /// Takes one word from those that are left; whether there was one.
    fn takes(&mut self) -> bool {
        if self.left == 0 || self.effort.is_spent() {
            return false;
        }
        self.left -= 1;
        self.effort.words += 1;
        true
    }

    /// Appends the unused values, which ascend, in every order. A value that cannot follow now
    /// cannot follow later, so one such value ends the search; in later turns two values that can
    /// follow in neither order do too. The word avoids.
    fn append(&mut self, word: &Word, length: usize) -> Outcome {
        if length == self.n {
            return Outcome::Found(*word);
        }
        if !self.takes() {
            return Outcome::Undecided;
        }
        if self.is_crowded(word, length) || !self.all_follow(word, length) {
            return Outcome::Nothing;
        }
        if self.pairs && !self.pairs_follow(word, length) {
            return Outcome::Nothing;
        }
        let mut longer = *word;
        for at in length..self.n {
            longer.swap(length, at);
            match self.append(&longer, length + 1) {
                Outcome::Nothing => {}
                decided => return decided,
            }
        }
        Outcome::Nothing
    }

    /// Whether each unused value can follow the word, which avoids.
    fn all_follow(&self, word: &Word, length: usize) -> bool {
        let mut longer = *word;
        word[length..self.n].iter().all(|&value| {
            longer[length] = value;
            !self.basis.iter().any(|p| ends_copy(p.items(), &longer[..=length]))
        })
    }

    /// Whether each two unused values can follow the word in one of the two orders. Each of them
    /// alone can.
    fn pairs_follow(&self, word: &Word, length: usize) -> bool {
        let unused = &word[length..self.n];
        let mut longer = *word;
        let mut follow = |x: u8, y: u8| {
            (longer[length], longer[length + 1]) = (x, y);
            !self.basis.iter().any(|p| ends_copy(p.items(), &longer[..length + 2]))
        };
        unused.iter().enumerate().all(|(i, &x)| unused[i + 1..].iter().all(|&y| follow(x, y) || follow(y, x)))
    }

    /// Whether more values are unused than the theorem of Erdős and Szekeres leaves room for. The
    /// unused values between the end of l rising entries and that of m falling ones hold no a - l
    /// that rise and no b - m that fall, so they are at most (a - 1 - l)(b - 1 - m).
    fn is_crowded(&self, word: &Word, length: usize) -> bool {
        let Some((a, b)) = self.monotone else { return false };
        let above_all = self.n as u8 + 1;
        // the least end of so many rising entries, and the greatest end of so many falling ones
        let mut rising = [above_all; PATTERN_LENGTH];
        let mut falling = [0; PATTERN_LENGTH];
        (rising[0], falling[0]) = (0, above_all);
        for &x in &word[..length] {
            for l in (1..a).rev() {
                if rising[l - 1] < x {
                    rising[l] = rising[l].min(x);
                }
            }
            for m in (1..b).rev() {
                if falling[m - 1] > x {
                    falling[m] = falling[m].max(x);
                }
            }
        }
        let unused = word[length..self.n].iter().fold(0u32, |set, x| set | 1 << x);
        let between = |low: u8, high: u8| (unused & ((1 << high) - 1) & !((2 << low) - 1)).count_ones() as usize;
        (0..a).any(|l| (0..b).any(|m| between(rising[l], falling[m]) > (a - 1 - l) * (b - 1 - m)))
    }

    /// Puts the unused values in one after the other, in the order in which they stand behind the
    /// word, each at every place behind the given entries, the last one first, and goes on only
    /// while the word avoids.
    fn put_in(&mut self, word: &Word, length: usize, given: usize) -> Outcome {
        if length == self.n {
            return Outcome::Found(*word);
        }
        let mut longer = *word;
        for place in (given..=length).rev() {
            if place < length {
                longer.swap(place, place + 1);
            }
            if self.basis.iter().any(|p| copy_through(p.items(), &longer[..=length], place)) {
                continue;
            }
            if !self.takes() {
                return Outcome::Undecided;
            }
            match self.put_in(&longer, length + 1, given) {
                Outcome::Nothing => {}
                decided => return decided,
            }
        }
        Outcome::Nothing
    }
}

/// The word with a value that stands at a place or behind it put there; the others behind may
/// change places.
fn with(mut word: Word, at: usize, value: u8) -> Word {
    let place = at + word[at..].iter().position(|x| *x == value).expect("an unused value");
    word.swap(at, place);
    word
}

/// The last avoider of length n: its complement is the first avoider of the complements.
pub fn last_avoider(patterns: &[Pattern], n: usize, effort: &mut Effort) -> Limited<Option<Word>> {
    let turned = |word: &[u8], n: usize| word.iter().map(|x| n as u8 + 1 - x).collect::<Vec<u8>>();
    let complements: Vec<Pattern> = patterns.iter().map(|p| Pattern::of(&turned(p.items(), p.count()))).collect();
    let first = Search::new(&complements, n, effort).first()?;
    Ok(first.map(|mut word| {
        word[..n].iter_mut().for_each(|x| *x = n as u8 + 1 - *x);
        word
    }))
}
