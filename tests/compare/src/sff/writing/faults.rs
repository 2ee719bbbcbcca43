//! Changes of a read that break the rules, or come close to it.

use super::read::Read;

/// Clips around the bounds of their fields, some of them sound in their low bits only.
pub const WIDE: [u64; 12] = [
    1,
    0xFF,
    0x100,
    0xFFFE,
    0xFFFF,
    0x1_0000,
    0x1_0001,
    0xFFFF_FFFF,
    0x1_0000_0000,
    0x1_0000_0001,
    1 << 63,
    u64::MAX,
];

/// The shortest name whose read header does not fit its field.
pub const FIRST_NAME_TOO_LONG: usize = 65_513;

#[derive(Clone, Copy, Debug, PartialEq, Eq)]
pub enum Fault {
    Name(usize),
    Flows(usize),
    Steps(usize),
    Letters(usize),
    Qualities(usize),
    Clip(usize, u64),
    Step(usize, u8),
}

impl Fault {
    /// Gives a list another length, or a clip or step another value.
    pub fn apply(self, read: &mut Read) {
        match self {
            Fault::Name(length) => read.name.resize(length, b'n'),
            Fault::Flows(length) => read.flows.resize(length, 9),
            Fault::Steps(length) => read.steps.resize(length, 0),
            Fault::Letters(length) => read.letters.resize(length, b'A'),
            Fault::Qualities(length) => read.qualities.resize(length, 9),
            Fault::Clip(which, clip) => read.clips[which] = clip,
            Fault::Step(base, step) => {
                let slots = read.steps.iter_mut().skip(base);
                slots.take(1).for_each(|slot| *slot = step);
            }
        }
    }
}

/// Every single change of the read, at and around each bound.
pub fn all_faults(read: &Read) -> Vec<Fault> {
    let mut faults: Vec<Fault> = [0, 7, 8, 9, 65_512, FIRST_NAME_TOO_LONG, 65_536, 65_541]
        .map(Fault::Name)
        .into();
    for length in around(read.flows.len()) {
        faults.push(Fault::Flows(length));
    }
    for length in around(read.letters.len()) {
        faults.push(Fault::Steps(length));
        faults.push(Fault::Letters(length));
        faults.push(Fault::Qualities(length));
    }
    let bases = read.letters.len() as u64;
    for which in 0..4 {
        for clip in [0, bases.saturating_sub(1), bases, bases + 1, bases + 65_536] {
            faults.push(Fault::Clip(which, clip));
        }
        faults.extend(WIDE.map(|clip| Fault::Clip(which, clip)));
    }
    for (base, &step) in read.steps.iter().enumerate() {
        for step in [0, 1, 255, step.wrapping_add(1), step.wrapping_sub(1)] {
            faults.push(Fault::Step(base, step));
        }
    }
    faults
}

fn around(count: usize) -> Vec<usize> {
    let mut lengths = vec![0, count.saturating_sub(1), count + 1, count + 256];
    lengths.push(count + 65_536);
    lengths
}
