//! Apply and Recover, which undo each other.

use crate::c::{calls, UNTYPED};
use crate::{Instantiation, Refusal, Schema, TypeRecord};

/// What [`apply`] answers.
#[derive(Clone, Copy, Debug, PartialEq, Eq)]
pub struct Application<'a> {
    /// The image of the instantiation, which is the part written of the schema slice.
    pub schema: Schema<'a>,
    /// Its output record, which is the part written of the result slice.
    pub output: TypeRecord<'a>,
}

/// Apply: the schema and the output record of an instantiation of the node's formula. Refusals: 1
/// to 21 and 26.
///
/// With a result, and with the refusals 20, 21 and 26, it fills the work space as
/// [`formula`](crate::formula) does. Schema slice and result slice stay beyond what is written, and
/// whole after a refusal.
///
/// ```
/// use type_formula::{
///     apply, InstantiationBuilder, Refusal, OUTPUT_SIZE, SCHEMA_SIZE, WORK_SIZE,
/// };
///
/// let (mut work, mut schema, mut out) = ([0; WORK_SIZE], [0; SCHEMA_SIZE], [0; OUTPUT_SIZE]);
///
/// // E9: r0 ∪ π{1}(r1).
/// let file = [2, 4, 0x01, 0, 0x01, 1, 0x1a, 1, 6, 2, 0, 0x0e, 0, 2, 1];
///
/// // Attribute 1 in both relations; the type variable 02, which r1 declares, has the list 20.
/// let mut builder = InstantiationBuilder::new();
/// builder.give_subset(1, 0b11)?;
/// builder.add_to_list(0b10, 20)?;
/// let bytes = builder.bytes();
/// let applied = apply(&file, 3, bytes, &mut work, &mut schema, &mut out)?;
/// assert_eq!(applied.schema.to_string(), "r0(a1), r1(a1, 20)");
/// assert_eq!(applied.output.to_string(), "(a1)");
///
/// // The subset 01 is no type variable.
/// builder.add_to_list(0b01, 21)?;
/// let given = apply(&file, 3, builder.bytes(), &mut work, &mut schema, &mut out);
/// assert_eq!(given, Err(Refusal::TypeVariable));
///
/// // E8: π{}(r0). Nothing is given to r0.
/// let (file, nothing) = ([1, 2, 0x01, 0, 0x1a, 0, 6, 0, 0], InstantiationBuilder::new());
/// let given = apply(&file, 1, nothing.bytes(), &mut work, &mut schema, &mut out);
/// assert_eq!(given, Err(Refusal::EmptyImage));
/// # Ok::<(), Refusal>(())
/// ```
pub fn apply<'a>(
    file: &[u8],
    node: usize,
    instantiation: &[u8],
    work: &mut [u8],
    schema: &'a mut [u8],
    out: &'a mut [u8],
) -> Result<Application<'a>, Refusal> {
    let mut lengths = calls::Lengths::default();
    match calls::apply(file, node, instantiation, work, schema, out, &mut lengths) {
        0 => Ok(Application {
            schema: Schema::of_read(file[0], &schema[..lengths.schema]),
            output: TypeRecord::of_read(&out[..lengths.output]),
        }),
        number => Err(Refusal::answered(number)),
    }
}

/// What [`recover`] answers.
#[derive(Clone, Copy, Debug, PartialEq, Eq)]
pub enum Recovery<'a> {
    /// The schema types the node: its instantiation, which is the part written of the result
    /// slice.
    Recovered(Instantiation<'a>),
    /// The schema does not type the node.
    Untyped,
}

/// Recover: the instantiation of the node's formula whose image is the schema. Refusals: 1 to 18 and
/// 25.
///
/// Unless it refuses, it fills the work space as [`formula`](crate::formula) does. The result slice
/// stays beyond the instantiation, and whole where there is none.
///
/// ```
/// use type_formula::{recover, Recovery, Refusal, INSTANTIATION_SIZE, WORK_SIZE};
///
/// let (mut work, mut result) = ([0; WORK_SIZE], [0; INSTANTIATION_SIZE]);
///
/// // E9: r0 ∪ π{1}(r1).
/// let file = [2, 4, 0x01, 0, 0x01, 1, 0x1a, 1, 6, 2, 0, 0x0e, 0, 2, 1];
///
/// // r0(a1), r1(a1, 20)
/// let schema = [2, 0, 3, 0, 1, 20, 0];
/// match recover(&file, 3, &schema, &mut work, &mut result)? {
///     Recovery::Recovered(given) => assert_eq!(given.to_string(), "a1: 03\n02: 20\n"),
///     Recovery::Untyped => panic!("E9 is typed"),
/// }
///
/// // r0(a2), r1(a1)
/// let given = recover(&file, 3, &[4, 0, 2, 0], &mut work, &mut result);
/// assert_eq!(given, Ok(Recovery::Untyped));
///
/// // r0(), r1(a1)
/// let given = recover(&file, 3, &[0, 0, 2, 0], &mut work, &mut result);
/// assert_eq!(given, Err(Refusal::EmptyRecord));
/// # Ok::<(), Refusal>(())
/// ```
pub fn recover<'a>(
    file: &[u8],
    node: usize,
    schema: &[u8],
    work: &mut [u8],
    instantiation: &'a mut [u8],
) -> Result<Recovery<'a>, Refusal> {
    let mut value = 0;
    match calls::recover(file, node, schema, work, instantiation, &mut value) {
        0 => {
            let written = &instantiation[..value];
            Ok(Recovery::Recovered(Instantiation::of_read(written)))
        }
        UNTYPED => Ok(Recovery::Untyped),
        number => Err(Refusal::answered(number)),
    }
}
