//! The schemes of the published papers, with their verdicts and counts.

pub struct Published {
    pub patterns: &'static str,
    pub scheme: &'static str,
    /// `accepted CELLS`, or `refused NUMBER INDEX`
    pub verdict: &'static str,
    pub counts: Vec<u64>,
}

pub fn published() -> Vec<Published> {
    let lines: Vec<&str> = include_str!("../published.txt").lines().filter(|l| !l.starts_with('#')).collect();
    let four = |l: &[&'static str]| Published {
        patterns: l[0],
        scheme: l[1],
        verdict: l[2],
        counts: l[3].split_whitespace().map(|n| n.parse().expect("a count")).collect(),
    };
    lines.chunks_exact(4).map(four).collect()
}
