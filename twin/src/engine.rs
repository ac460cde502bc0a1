//! The engine: the functions of its static library, declared here and nowhere else, and its
//! programs.

use std::io::Write;
use std::path::{Path, PathBuf};
use std::process::{Command, Stdio};

mod library {
    #[link(name = "kernel", kind = "static")]
    extern "C" {
        pub fn judge(patterns: *const u8, patterns_length: usize, scheme: *const u8, scheme_length: usize) -> u32;
    }

    #[link(name = "twin_exports", kind = "static")]
    extern "C" {
        pub fn count_texts(
            patterns: *const u8,
            patterns_length: usize,
            scheme: *const u8,
            scheme_length: usize,
            n: usize,
            table: *mut u64,
            cells: usize,
        ) -> u64;
        pub fn count_texts_plainly(patterns: *const u8, patterns_length: usize, scheme: *const u8, scheme_length: usize, n: usize) -> u64;
        pub fn inversions_of_texts(
            patterns: *const u8,
            patterns_length: usize,
            scheme: *const u8,
            scheme_length: usize,
            n: usize,
            table: *mut u64,
            cells: usize,
            results: *mut u64,
            results_length: usize,
        ) -> u64;
        pub fn judge_texts_on_page(
            patterns: *const u8,
            patterns_length: usize,
            scheme: *const u8,
            scheme_length: usize,
            page: *mut u8,
            page_length: usize,
        ) -> u64;
        pub fn copy_of(pattern: *const u8, pattern_length: usize, permutation: *const u8, permutation_length: usize, page: *mut u8, page_length: usize) -> u64;
        pub fn first_of_text(patterns: *const u8, patterns_length: usize, n: usize, page: *mut u8, page_length: usize) -> u64;
        pub fn next_of_text(
            patterns: *const u8,
            patterns_length: usize,
            permutation: *const u8,
            permutation_length: usize,
            page: *mut u8,
            page_length: usize,
        ) -> u64;
    }
}

/// The engine's judge: 0, or the number of the refusal.
pub fn judge(patterns: &[u8], scheme: &[u8]) -> u32 {
    // The library reads the two texts within their lengths and keeps neither.
    unsafe { library::judge(start(patterns), patterns.len(), start(scheme), scheme.len()) }
}

/// Where a text starts: a null pointer for a text of no bytes, which the header allows.
fn start(text: &[u8]) -> *const u8 {
    if text.is_empty() {
        std::ptr::null()
    } else {
        text.as_ptr()
    }
}

/// Counting: the two texts, n and the table; the count, or the number of the refusal. Plain
/// evaluation: the same without a table.
pub type Count = fn(&[u8], &[u8], usize, &mut [u64]) -> Result<u64, u32>;
pub type Plain = fn(&[u8], &[u8], usize) -> Result<u64, u32>;

/// The engine's counting and plain evaluation.
pub const COUNT: Option<Count> = Some(count);
pub const PLAIN: Option<Plain> = Some(plain);

fn count(patterns: &[u8], scheme: &[u8], n: usize, table: &mut [u64]) -> Result<u64, u32> {
    // The library reads the two texts and writes the table, each within its length, and keeps none
    // of them.
    let code = unsafe { library::count_texts(start(patterns), patterns.len(), start(scheme), scheme.len(), n, table.as_mut_ptr(), table.len()) };
    answer(code)
}

fn plain(patterns: &[u8], scheme: &[u8], n: usize) -> Result<u64, u32> {
    // As for `judge`.
    let code = unsafe { library::count_texts_plainly(start(patterns), patterns.len(), start(scheme), scheme.len(), n) };
    answer(code)
}

/// Counting by inversions: the two texts, n, the table and the results; the number of figures, or
/// the number of the refusal.
pub type Inversions = fn(&[u8], &[u8], usize, &mut [u64], &mut [u64]) -> Result<u64, u32>;

/// The engine's counting by inversions.
pub const INVERSIONS: Option<Inversions> = Some(inversions);

fn inversions(patterns: &[u8], scheme: &[u8], n: usize, table: &mut [u64], results: &mut [u64]) -> Result<u64, u32> {
    // The library reads the two texts and writes the table and the results, each within its length,
    // and keeps none of them.
    let (first, second) = (start(patterns), start(scheme));
    let (lent, cells) = (table.as_mut_ptr(), table.len());
    let (figures, length) = (results.as_mut_ptr(), results.len());
    let code = unsafe { library::inversions_of_texts(first, patterns.len(), second, scheme.len(), n, lent, cells, figures, length) };
    answer(code)
}

/// Judging with a page: the two texts and the page; the number of compared cells, or the number of
/// the refusal. Containment: a pattern, a permutation and a page; the number of positions of the
/// first copy, 0 for none, or the number of the refusal.
pub type OnPage = fn(&[u8], &[u8], &mut [u8]) -> Result<u64, u32>;

/// The engine's judging with a page and its containment.
pub const JUDGE_ON_PAGE: Option<OnPage> = Some(judge_on_page);
pub const COPY_OF: Option<OnPage> = Some(copy_of);

fn judge_on_page(patterns: &[u8], scheme: &[u8], page: &mut [u8]) -> Result<u64, u32> {
    // The library reads the two texts and writes the page, each within its length, and keeps none
    // of them.
    let (first, second) = (start(patterns), start(scheme));
    let (lent, bytes) = (page.as_mut_ptr(), page.len());
    let code = unsafe { library::judge_texts_on_page(first, patterns.len(), second, scheme.len(), lent, bytes) };
    answer(code)
}

fn copy_of(pattern: &[u8], permutation: &[u8], page: &mut [u8]) -> Result<u64, u32> {
    // As for `judge_on_page`.
    let (first, second) = (start(pattern), start(permutation));
    let (lent, bytes) = (page.as_mut_ptr(), page.len());
    let code = unsafe { library::copy_of(first, pattern.len(), second, permutation.len(), lent, bytes) };
    answer(code)
}

/// The first avoider: a set's text, a length and a page; the next: a set's text, a permutation and
/// a page. The answer is 1 where one is given, 0 for nothing, or the number of the refusal.
pub type First = fn(&[u8], usize, &mut [u8]) -> Result<u64, u32>;

/// The engine's first and next avoider.
pub const FIRST: Option<First> = Some(first_avoider);
pub const NEXT: Option<OnPage> = Some(next_avoider);

fn first_avoider(patterns: &[u8], n: usize, page: &mut [u8]) -> Result<u64, u32> {
    // As for `judge_on_page`.
    let (lent, bytes) = (page.as_mut_ptr(), page.len());
    let code = unsafe { library::first_of_text(start(patterns), patterns.len(), n, lent, bytes) };
    answer(code)
}

fn next_avoider(patterns: &[u8], permutation: &[u8], page: &mut [u8]) -> Result<u64, u32> {
    // As for `judge_on_page`.
    let (first, second) = (start(patterns), start(permutation));
    let (lent, bytes) = (page.as_mut_ptr(), page.len());
    let code = unsafe { library::next_of_text(first, patterns.len(), second, permutation.len(), lent, bytes) };
    answer(code)
}

/// The greatest number of a refusal.
const LAST_REFUSAL: u64 = 17;

/// A count, or the number of a refusal, which comes as 2 to the 64 less 1 and less that number.
fn answer(code: u64) -> Result<u64, u32> {
    if u64::MAX - code <= LAST_REFUSAL {
        Err((u64::MAX - code) as u32)
    } else {
        Ok(code)
    }
}

/// The place of a program of the engine, if it is built.
pub fn program(name: &str) -> Option<PathBuf> {
    let path = Path::new(env!("CARGO_MANIFEST_DIR")).join("../target/bin").join(name);
    path.exists().then_some(path)
}

/// What a program prints on an input; None where it does not end well.
pub fn output(program: &Path, input: &[u8]) -> Option<Vec<u8>> {
    let mut child = Command::new(program).stdin(Stdio::piped()).stdout(Stdio::piped()).spawn().ok()?;
    let mut pipe = child.stdin.take()?;
    let bytes = input.to_vec();
    // A program that stops reading early closes the pipe, which is no fault of this writer.
    let writer = std::thread::spawn(move || drop(pipe.write_all(&bytes)));
    let output = child.wait_with_output().ok()?;
    writer.join().ok()?;
    output.status.success().then_some(output.stdout)
}
