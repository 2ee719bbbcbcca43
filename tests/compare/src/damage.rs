//! Faults in files of any format.

use crate::format::{Draft, Format};
use crate::random::Random;

const MOST_ENTRIES: usize = 8;

/// The changes that set each field to each of its values.
pub fn each_value<Field: Copy, Value, Change>(
    fields: impl IntoIterator<Item = (Field, Vec<Value>)>,
    change: impl Fn(Field, Value) -> Change,
) -> Vec<Change> {
    let mut changes = Vec::new();
    for (field, values) in fields {
        changes.extend(values.into_iter().map(|value| change(field, value)));
    }
    changes
}

/// The file with these changes made to it in their order.
pub fn changed<F: Format>(file: &F::Draft, changes: &[F::Change]) -> F::Draft {
    let mut draft = file.clone();
    for &change in changes {
        F::apply(change, &mut draft);
    }
    draft
}

/// A whole file with one to three random changes from all that the rules speak about.
pub fn random_changes<F: Format>(random: &mut Random) -> F::Draft {
    let mut draft = F::random_file(random, MOST_ENTRIES);
    for _ in 0..random.between(1, 3) {
        let change = random.pick(&F::all_changes(&draft));
        F::apply(change, &mut draft);
    }
    draft
}

/// A whole file with some of its bytes changed, mostly in its fields.
pub fn random_byte_changes<F: Format>(random: &mut Random) -> Vec<u8> {
    let draft = F::random_file(random, MOST_ENTRIES);
    let fields = draft.fields();
    let mut bytes = draft.bytes();
    for _ in 0..random.between(1, 4) {
        let place = if random.one_in(8) {
            random.below(bytes.len())
        } else {
            let field = random.pick(&fields);
            random.between(field.start, field.end - 1)
        };
        bytes[place] = match random.below(4) {
            0 => bytes[place] ^ 1 << random.below(8),
            1 => bytes[place].wrapping_add(1),
            2 => random.pick(&[0, 1, 0x7F, 0x80, 0xFF]),
            _ => random.next_u64() as u8,
        };
    }
    bytes
}
