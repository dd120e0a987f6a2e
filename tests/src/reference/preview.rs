//! The operation Preview, written plainly from FORMAT 7.28 and 8.9: Verdict of the file that Edit
//! would write, whose witness is dropped.

use super::{
    infer, read_file, Inferred, Verdict, FORMULA_LENGTH, SCHEMA_LENGTH, WORK_SPACE_TOO_SHORT,
};

/// An answer of Preview.
#[derive(Clone, Copy, Debug, PartialEq, Eq)]
pub enum Preview {
    /// How many memberships Verdict's witness has.
    Typable { memberships: u8 },
    /// The lowest special attribute whose column allows nothing, or 0 where the relations cannot
    /// all be filled.
    Untypable { attribute: u8 },
    /// The first refusal.
    Refused { number: u8 },
}

/// The edited file with the formulas of its nodes, or the first refusal.
fn edited(bytes: &[u8], node: usize, record: &[u8], work_length: usize) -> Result<Inferred, u8> {
    let file = read_file(bytes)?;
    file.check_node(node)?;
    if work_length < FORMULA_LENGTH * file.nodes.len() {
        return Err(WORK_SPACE_TOO_SHORT);
    }
    infer(&file.exchange(node, record)?)
}

/// Preview: unless refused, fills the work space as Formula of the edited file does.
pub fn preview(bytes: &[u8], node: usize, record: &[u8], work: &mut [u8]) -> Preview {
    let inferred = match edited(bytes, node, record, work.len()) {
        Ok(inferred) => inferred,
        Err(number) => return Preview::Refused { number },
    };
    let last = inferred.formulas.len() - 1;
    match inferred.verdict(last, work, &mut [0; SCHEMA_LENGTH]) {
        Verdict::Typable { memberships, .. } => Preview::Typable { memberships },
        Verdict::Untypable { attribute } => Preview::Untypable { attribute },
        Verdict::Refused { number } => Preview::Refused { number },
    }
}
