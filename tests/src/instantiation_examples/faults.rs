//! Instantiations with several faults, of which the first in the order of documents 01 and 02 is
//! the answer.

use super::refused::refused;
use super::{example, instantiation_bytes, list, ApplyCase, UNFILLED};

/// Faults that come in one instantiation, by their refusals, in the order of the tests.
const ORDER: [u8; 7] = [14, 17, 19, 18, 20, 21, 26];

/// Subsets that are no type variables of E1's last node: the empty one, another, the
/// lowest that is not below 2^m, and the greatest.
const NO_VARIABLES: [usize; 4] = [0x00, 0x05, 0x08, 0xff];

/// An instantiation for E1's last node with these faults: 18 by 255 attributes in one list
/// and one or two in others, 19 by one of them in another list, 20 by a list of `other`, which
/// stands before, between or after the others, and 26 by r2, which has no attribute but those that
/// other faults need.
pub fn with_faults(faults: &[u8], other: usize) -> Vec<u8> {
    let has = |fault: u8| faults.contains(&fault);
    let mut lists = vec![(0x03, list(16..if has(18) { 271 } else { 18 }))];
    if has(18) || !has(26) {
        lists.push((0x04, vec![300]));
    }
    if has(19) || !has(26) {
        lists.push((0x07, vec![if has(19) { 17 } else { 301 }]));
    }
    if has(20) {
        lists.push((other, vec![302]));
        lists.sort();
    }
    let attribute_15 = if has(21) { 0x01 } else { 0x00 };
    let mut bytes = instantiation_bytes(&[UNFILLED, &[(15, attribute_15)]].concat(), &lists);
    if has(14) {
        bytes.pop();
    }
    if has(17) {
        bytes.push(0x55);
    }
    bytes
}

/// Every set of faults; the first in the order is the answer. 14 and 17 exclude each
/// other.
pub(super) fn sets_of_faults() -> Vec<ApplyCase> {
    let mut cases = Vec::new();
    for set in 1..1 << ORDER.len() {
        let faults: Vec<u8> = (0..ORDER.len())
            .filter(|place| set >> place & 1 == 1)
            .map(|place| ORDER[place])
            .collect();
        if faults.starts_with(&[14, 17]) {
            continue;
        }
        for other in NO_VARIABLES {
            let name = format!("faults {faults:?}, other {other:02x}");
            let bytes = with_faults(&faults, other);
            cases.push(refused(name, example("E1"), bytes, faults[0]));
        }
    }
    cases
}

/// All faults from 17 to 21 and, in the last list, 15 or 16.
pub(super) fn faults_in_the_last_list() -> Vec<ApplyCase> {
    let whole = with_faults(&[19, 18, 20, 21], 0xff);
    let front = &whole[..whole.len() - 3];
    [
        ("count byte 0 before 17 to 21", vec![0, 0x55], 15),
        ("15 listed before 17 to 21", vec![1, 15, 0, 0x55], 16),
        (
            "one attribute twice before 17 to 21",
            vec![2, 20, 0, 20, 0, 0x55],
            16,
        ),
        ("cut before 19 to 21", vec![2, 20, 0, 30], 14),
        ("bytes left over before 19 to 21", vec![1, 20, 0, 0x55], 17),
    ]
    .into_iter()
    .map(|(name, last, refusal)| refused(name, example("E1"), [front, &last].concat(), refusal))
    .collect()
}
