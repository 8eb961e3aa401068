// The message of a commit: one line, written and read.

use crate::decimal;
use crate::limits::*;

/// The line with its newline.
pub fn line(stamp: u32, versions: &[Version]) -> Vec<u8> {
    let mut text = format!("p\t{stamp}");
    for v in versions {
        text += &format!("\t{}\t{}\t{}", v.key, v.ordinal, v.value);
    }
    text.push('\n');
    text.into_bytes()
}

/// The versions that a line (its newline taken off) brings, or none if it is not of the form.
pub fn versions(line: &[u8]) -> Option<Vec<Version>> {
    let fields: Vec<&[u8]> = line.split(|&b| b == b'\t').collect();
    if fields[0] != b"p" || fields.len() < 2 || (fields.len() - 2) % 3 != 0 {
        return None;
    }
    let stamp = decimal::number(fields[1], 1, LAST_STAMP)?;
    let mut versions: Vec<Version> = Vec::new();
    for three in fields[2..].chunks(3) {
        let key = decimal::number(three[0], 0, KEYS - 1)?;
        let ordinal = decimal::number(three[1], 1, LOG as u32)?;
        let value = decimal::value(three[2])?;
        if versions.iter().any(|v| v.key == key) {
            return None;
        }
        versions.push(Version { key, ordinal, stamp, value });
    }
    (1 <= versions.len() && versions.len() <= WRITES).then_some(versions)
}
