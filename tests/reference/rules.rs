// The rules of RVSI over lists, as document 01 states them: distance, BV, FV and SV.
// A master gives stamps for `at`, a history gives line numbers.

/// A version as the rules see it: its key, and when it was committed (0 for the start version).
#[derive(Clone, Copy, PartialEq, Eq, Debug)]
pub struct Seen {
    pub key: u32,
    pub at: u32,
}

/// O_x(t): the number of versions of x at or before t, the start version not counted.
pub fn versions_until(log: &[Seen], x: u32, t: u32) -> i64 {
    log.iter().filter(|v| v.key == x && v.at <= t).count() as i64
}

/// Positive is stale, negative is committed after the start.
pub fn distance(log: &[Seen], start: u32, read: Seen) -> i64 {
    versions_until(log, read.key, start) - versions_until(log, read.key, read.at)
}

/// The place of the first read whose distance is not less than k1.
pub fn first_bv(log: &[Seen], start: u32, reads: &[Seen], k1: u32) -> Option<usize> {
    reads.iter().position(|&read| distance(log, start, read) >= i64::from(k1))
}

/// The place of the first read for which minus the distance is more than k2.
pub fn first_fv(log: &[Seen], start: u32, reads: &[Seen], k2: u32) -> Option<usize> {
    reads.iter().position(|&read| -distance(log, start, read) > i64::from(k2))
}

/// The first pair x, y with more than k3 versions of x strictly after the version read of x and strictly before that of y.
pub fn first_sv(log: &[Seen], reads: &[Seen], k3: u32) -> Option<(usize, usize)> {
    for (i, x) in reads.iter().enumerate() {
        let later: Vec<u32> = log.iter().filter(|v| v.key == x.key && v.at > x.at).map(|v| v.at).collect();
        for (j, y) in reads.iter().enumerate() {
            let between = later.iter().filter(|&&at| at < y.at).count();
            if between as i64 > i64::from(k3) {
                return Some((i, j));
            }
        }
    }
    None
}
