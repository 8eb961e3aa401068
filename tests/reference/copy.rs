// A copy: takes messages, answers reads, and is compared with the master.

use crate::limits::*;
use crate::master::Master;
use crate::message;

pub struct Copy {
    pub versions: Vec<Version>,
}

pub struct Comparison {
    pub behind: u64,
    pub count: u32,
    pub lowest: u32,
}

impl Copy {
    pub fn new() -> Copy {
        Copy { versions: (0..KEYS).map(start_version).collect() }
    }

    pub fn take(&mut self, line: &[u8]) -> Result<(), Refusal> {
        for version in message::versions(line).ok_or(BAD_MESSAGE)? {
            let mine = &mut self.versions[version.key as usize];
            if version.ordinal > mine.ordinal {
                *mine = version;
            }
        }
        Ok(())
    }

    pub fn look(&self, key: u32) -> Result<Version, Refusal> {
        self.versions.get(key as usize).copied().ok_or(NO_SUCH_KEY)
    }

    pub fn compare(&self, master: &Master) -> Result<Comparison, Refusal> {
        let mut found = Comparison { behind: 0, count: 0, lowest: KEYS };
        for key in (0..KEYS).rev() {
            let (here, there) = (self.versions[key as usize].ordinal, master.newest(key).ordinal);
            if here > there {
                return Err(COPY_AHEAD);
            }
            if here < there {
                found.behind |= 1 << key;
                found.count += 1;
                found.lowest = key;
            }
        }
        Ok(found)
    }
}
