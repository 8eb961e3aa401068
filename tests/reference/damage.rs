// Damage to a line of a session, a message or a history: what a careless or hostile writer sends.

use crate::random::Random;

/// Numbers at the edges of the ranges, and texts that are almost numbers; the last one is empty.
const NUMBERS: &str = "0 1 15 16 17 63 64 65 255 256 4095 4096 4097 65535 65536 2147483647 2147483648 4294967295 4294967296 4294967297 \
    18446744073709551616 99999999999999999999999 -1 -0 +1 00 01 1. x ";

const VALUES: &str = "-0 -2147483648 -2147483649 -4294967296 --1 - -01 -00 +0";

/// The words of steps and records, and some that are none.
const WORDS: &str =
    "open start read note write tune distance abort commit message newest copy take look compare Start stop p P s k r w c a b S \u{e9}";

fn one_of(r: &mut Random, list: &str) -> Vec<u8> {
    let list: Vec<&str> = list.split(' ').collect();
    r.pick(&list).as_bytes().to_vec()
}

/// A line, without its newline, damaged in one of many ways. `gap` parts its fields.
pub fn line(r: &mut Random, line: &[u8], gap: u8) -> Vec<u8> {
    let mut fields: Vec<Vec<u8>> = line.split(|&b| b == gap).map(<[u8]>::to_vec).collect();
    let last = fields.len() - 1;
    let at = r.below(fields.len() as u64) as usize;
    // The first field is a word: a number goes to a later one, if there is one.
    let number = if last == 0 { 0 } else { r.between(1, last as u64) as usize };
    match r.below(18) {
        0 => fields[number].insert(0, b'0'),
        1 | 2 => fields[number] = one_of(r, NUMBERS),
        3 => fields[last] = one_of(r, VALUES),
        4 => {
            fields.remove(at);
        }
        5 => fields.push(one_of(r, NUMBERS)),
        6 => fields.insert(at, Vec::new()),
        7 => fields.push(Vec::new()),
        8 => fields[at].push(r.pick(b"\r\t \0\x0b\xff")),
        9 => fields[0] = one_of(r, WORDS),
        10 => fields[0].push(r.pick(b"sS1_")),
        11 => return other_gap(r, line, gap),
        12 => return bytes(r, line),
        13 => return Vec::new(),
        14 => fields.swap(at, last),
        15 => fields[number] = b"0".to_vec(),
        16 => fields[number].insert(0, b'-'),
        _ => {
            let again = fields[at].clone();
            fields.insert(at, again);
        }
    }
    fields.join(&gap)
}

/// One gap, or all, made a tab or a space or doubled.
fn other_gap(r: &mut Random, line: &[u8], gap: u8) -> Vec<u8> {
    let new: &[u8] = r.pick(&[&b" "[..], &b"\t"[..], &b"  "[..], &b"\t\t"[..], &b","[..]]);
    let all = r.one_in(3);
    let mut done = false;
    let mut damaged = Vec::new();
    for &b in line {
        if b == gap && (all || !done) {
            damaged.extend_from_slice(new);
            done = true;
        } else {
            damaged.push(b);
        }
    }
    damaged
}

/// One to three bytes taken out, put in or changed; none becomes a newline.
fn bytes(r: &mut Random, line: &[u8]) -> Vec<u8> {
    let mut damaged = line.to_vec();
    for _ in 0..r.between(1, 3) {
        let at = r.below(damaged.len() as u64 + 1) as usize;
        let byte = if r.one_in(2) { r.pick(b"0123456789 \t-+pswrkca") } else { r.between(11, 255) as u8 };
        match r.below(3) {
            0 => damaged.insert(at, byte),
            1 if at < damaged.len() => damaged[at] = byte,
            2 if at < damaged.len() => {
                damaged.remove(at);
            }
            _ => {}
        }
    }
    damaged
}
