//! One call of an operation by each implementation.

use std::hint::black_box;

use type_formula_tests::answer::{Answer, RESULT};
use type_formula_tests::engine::{self, Found, Lengths, Previewed};
use type_formula_tests::reference::{
    self, Apply, Edit, ParseQuery, Preview, Recover, Typing, Verdict,
};

use crate::settings::Setting;
use crate::slices::{Paged, Parts, Slices};
use crate::words;

#[derive(Clone, Copy, Debug, PartialEq, Eq)]
pub enum Operation {
    Formula,
    Verdict,
    Edit,
    Preview,
    Typing,
    Apply,
    Recover,
    ParseQuery,
}

/// All operations; parsing a query is the last.
pub const OPERATIONS: [Operation; 8] = [
    Operation::Formula,
    Operation::Verdict,
    Operation::Edit,
    Operation::Preview,
    Operation::Typing,
    Operation::Apply,
    Operation::Recover,
    Operation::ParseQuery,
];

impl Operation {
    pub fn name(self) -> &'static str {
        match self {
            Operation::Formula => "Formula",
            Operation::Verdict => "Verdict",
            Operation::Edit => "Edit",
            Operation::Preview => "Preview",
            Operation::Typing => "Typing",
            Operation::Apply => "Apply",
            Operation::Recover => "Recover",
            Operation::ParseQuery => "Parse a query",
        }
    }
}

/// What makes a call: the engine, the reference, the code written by hand for speed, or a
/// copy of the bytes that they write, by the C library or by a loop over 64-bit words.
#[derive(Clone, Copy, Debug, PartialEq, Eq)]
pub enum By {
    Engine,
    Reference,
    Words,
    Copy,
    CopyLoop,
}

pub const ALL: [By; 5] = [By::Engine, By::Reference, By::Words, By::Copy, By::CopyLoop];

/// A call with these slices.
pub type Call<'a> = Box<dyn Fn(&mut Slices) + 'a>;

/// A call for the setting: the answer as a number, and the numbers written.
type OneCall = fn(&Setting, Parts) -> [usize; 3];

fn formula(by: impl Fn(&[u8], &mut [u8]) -> u8, of: &Setting, slices: Parts) -> [usize; 3] {
    let answer = by(black_box(&of.file), slices.work);
    [answer.into(), 0, 0]
}

fn verdict_by_engine(of: &Setting, slices: Parts) -> [usize; 3] {
    let (file, mut found) = (black_box(&of.file), Found::default());
    let answer = engine::verdict(file, of.last, slices.work, slices.schema, &mut found);
    [answer.into(), found.value, found.memberships.into()]
}

fn verdict(
    by: impl Fn(&[u8], usize, &mut [u8], &mut [u8]) -> Verdict,
    of: &Setting,
    slices: Parts,
) -> [usize; 3] {
    let verdict = by(black_box(&of.file), of.last, slices.work, slices.schema);
    let (value, memberships) = match verdict {
        Verdict::Typable {
            length,
            memberships,
        } => (length, memberships),
        Verdict::Untypable { attribute } => (attribute.into(), 0),
        Verdict::Refused { .. } => (0, 0),
    };
    [verdict.number().into(), value, memberships.into()]
}

fn edit_by_engine(of: &Setting, slices: Parts) -> [usize; 3] {
    let (file, record, mut size) = (black_box(&of.file), black_box(&of.record), 0);
    let answer = engine::edit(file, of.middle, record, slices.file, &mut size);
    [answer.into(), size, 0]
}

fn edit(
    by: impl Fn(&[u8], usize, &[u8], &mut [u8]) -> Edit,
    of: &Setting,
    slices: Parts,
) -> [usize; 3] {
    let (file, record) = (black_box(&of.file), black_box(&of.record));
    let edit = by(file, of.middle, record, slices.file);
    let length = match edit {
        Edit::Edited { length } => length,
        Edit::Refused { .. } => 0,
    };
    [edit.number().into(), length, 0]
}

fn preview_by_engine(of: &Setting, slices: Parts) -> [usize; 3] {
    let (file, record) = (black_box(&of.file), black_box(&of.record));
    let mut previewed = Previewed::default();
    let answer = engine::preview(file, of.middle, record, slices.work, &mut previewed);
    let Previewed {
        attribute,
        memberships,
    } = previewed;
    [answer.into(), attribute.into(), memberships.into()]
}

fn preview(
    by: impl Fn(&[u8], usize, &[u8], &mut [u8]) -> Preview,
    of: &Setting,
    slices: Parts,
) -> [usize; 3] {
    let (file, record) = (black_box(&of.file), black_box(&of.record));
    let preview = by(file, of.middle, record, slices.work);
    let (attribute, memberships) = match preview {
        Preview::Typable { memberships } => (0, memberships),
        Preview::Untypable { attribute } => (attribute, 0),
        Preview::Refused { .. } => (0, 0),
    };
    [
        preview.number().into(),
        attribute.into(),
        memberships.into(),
    ]
}

fn typing_by_engine(of: &Setting, slices: Parts) -> [usize; 3] {
    let (file, schema, mut value) = (black_box(&of.file), black_box(&of.schema), 0);
    let answer = engine::typing(file, of.last, schema, slices.out, &mut value);
    [answer.into(), value, 0]
}

fn typing(
    by: impl Fn(&[u8], usize, &[u8], &mut [u8]) -> Typing,
    of: &Setting,
    slices: Parts,
) -> [usize; 3] {
    let (file, schema) = (black_box(&of.file), black_box(&of.schema));
    let typing = by(file, of.last, schema, slices.out);
    let length = match typing {
        Typing::Typed { length } => length,
        _ => 0,
    };
    [typing.number().into(), length, 0]
}

fn apply_by_engine(of: &Setting, slices: Parts) -> [usize; 3] {
    let (file, instantiation) = (black_box(&of.file), black_box(&of.instantiation));
    let Parts {
        work, schema, out, ..
    } = slices;
    let mut lengths = Lengths::default();
    let answer = engine::apply(
        file,
        of.last,
        instantiation,
        work,
        schema,
        out,
        &mut lengths,
    );
    [answer.into(), lengths.schema, lengths.output]
}

fn apply(
    by: impl Fn(&[u8], usize, &[u8], &mut [u8], &mut [u8], &mut [u8]) -> Apply,
    of: &Setting,
    slices: Parts,
) -> [usize; 3] {
    let (file, instantiation) = (black_box(&of.file), black_box(&of.instantiation));
    let Parts {
        work, schema, out, ..
    } = slices;
    let apply = by(file, of.last, instantiation, work, schema, out);
    let (schema, output) = match apply {
        Apply::Applied { schema, output } => (schema, output),
        Apply::Refused { .. } => (0, 0),
    };
    [apply.number().into(), schema, output]
}

fn recover_by_engine(of: &Setting, slices: Parts) -> [usize; 3] {
    let (file, schema, mut value) = (black_box(&of.file), black_box(&of.schema), 0);
    let (work, result) = (slices.work, slices.instantiation);
    let answer = engine::recover(file, of.last, schema, work, result, &mut value);
    [answer.into(), value, 0]
}

fn recover(
    by: impl Fn(&[u8], usize, &[u8], &mut [u8], &mut [u8]) -> Recover,
    of: &Setting,
    slices: Parts,
) -> [usize; 3] {
    let (file, schema) = (black_box(&of.file), black_box(&of.schema));
    let (work, result) = (slices.work, slices.instantiation);
    let recover = by(file, of.last, schema, work, result);
    let length = match recover {
        Recover::Recovered { length } => length,
        _ => 0,
    };
    [recover.number().into(), length, 0]
}

fn parse_query_by_engine(of: &Setting, slices: Parts) -> [usize; 3] {
    let (text, mut size) = (black_box(&of.text), 0);
    let answer = engine::parse_query(of.file[0], text, slices.file, &mut size);
    [answer.into(), size, 0]
}

fn parse_query(
    by: impl Fn(u8, &[u8], &mut [u8]) -> ParseQuery,
    of: &Setting,
    slices: Parts,
) -> [usize; 3] {
    let parsed = by(of.file[0], black_box(&of.text), slices.file);
    let length = match parsed {
        ParseQuery::Parsed { length } => length,
        ParseQuery::Refused { .. } => 0,
    };
    [parsed.number().into(), length, 0]
}

/// The call by an implementation; none for a copy.
fn one_call(operation: Operation, by: By) -> Option<OneCall> {
    let call: OneCall = match (operation, by) {
        (Operation::Formula, By::Engine) => |of, slices| formula(engine::formula, of, slices),
        (Operation::Formula, By::Reference) => |of, slices| formula(reference::formula, of, slices),
        (Operation::Formula, By::Words) => |of, slices| formula(words::formula, of, slices),
        (Operation::Verdict, By::Engine) => verdict_by_engine,
        (Operation::Verdict, By::Reference) => |of, slices| verdict(reference::verdict, of, slices),
        (Operation::Verdict, By::Words) => |of, slices| verdict(words::verdict, of, slices),
        (Operation::Edit, By::Engine) => edit_by_engine,
        (Operation::Edit, By::Reference) => |of, slices| edit(reference::edit, of, slices),
        (Operation::Edit, By::Words) => |of, slices| edit(words::edit, of, slices),
        (Operation::Preview, By::Engine) => preview_by_engine,
        (Operation::Preview, By::Reference) => |of, slices| preview(reference::preview, of, slices),
        (Operation::Preview, By::Words) => |of, slices| preview(words::preview, of, slices),
        (Operation::Typing, By::Engine) => typing_by_engine,
        (Operation::Typing, By::Reference) => |of, slices| typing(reference::typing, of, slices),
        (Operation::Typing, By::Words) => |of, slices| typing(words::typing, of, slices),
        (Operation::Apply, By::Engine) => apply_by_engine,
        (Operation::Apply, By::Reference) => |of, slices| apply(reference::apply, of, slices),
        (Operation::Apply, By::Words) => |of, slices| apply(words::apply, of, slices),
        (Operation::Recover, By::Engine) => recover_by_engine,
        (Operation::Recover, By::Reference) => |of, slices| recover(reference::recover, of, slices),
        (Operation::Recover, By::Words) => |of, slices| recover(words::recover, of, slices),
        (Operation::ParseQuery, By::Engine) => parse_query_by_engine,
        (Operation::ParseQuery, By::Reference) => {
            |of, slices| parse_query(reference::parse_query, of, slices)
        }
        (Operation::ParseQuery, By::Words) => {
            |of, slices| parse_query(words::parse_query, of, slices)
        }
        _ => return None,
    };
    Some(call)
}

/// The length of the copy beside an operation: the bytes that it writes, the formulas among
/// them; for Typing those of the schema and for a query those of its text, which they read, too;
/// for Preview also the edited file.
fn copied_length(operation: Operation, setting: &Setting) -> usize {
    let (work, schema) = (setting.work_length(), setting.schema.len());
    match operation {
        Operation::Formula | Operation::Verdict => work,
        Operation::Edit => setting.file.len(),
        Operation::Preview => work + setting.file.len(),
        Operation::Typing => schema + setting.output_length,
        Operation::Apply => work + schema + setting.output_length,
        Operation::Recover => work + setting.instantiation.len(),
        Operation::ParseQuery => setting.text.len() + setting.file.len(),
    }
}

/// A copy by a loop over 64-bit words, compiled as every loop here is: the optimiser does not
/// know that the number is 0, and so does not call the C library's copy.
fn copy_words(target: &mut [u8], source: &[u8]) {
    let zero = black_box(0);
    let words = target.chunks_exact_mut(8).zip(source.chunks_exact(8));
    for (target, source) in words {
        let word = u64::from_le_bytes(source.try_into().expect("eight bytes"));
        target.copy_from_slice(&(word ^ zero).to_le_bytes());
    }
    let rest = source.len() % 8;
    target[source.len() - rest..].copy_from_slice(&source[source.len() - rest..]);
}

/// The copy of so many bytes to the slices.
fn copy(by: By, length: usize) -> Call<'static> {
    let source = Paged::new(length);
    Box::new(move |slices| {
        let target = black_box(&mut slices.bytes()[..length]);
        match by {
            By::CopyLoop => copy_words(target, black_box(source.bytes())),
            _ => target.copy_from_slice(black_box(source.bytes())),
        }
    })
}

/// The call, if there is such a one.
pub fn call(operation: Operation, by: By, setting: &Setting) -> Option<Call<'_>> {
    if by == By::Copy || by == By::CopyLoop {
        return Some(copy(by, copied_length(operation, setting)));
    }
    let one_call = one_call(operation, by)?;
    Some(Box::new(move |slices| {
        let parts = black_box(slices.parts(setting.work_length()));
        slices.answer = black_box(one_call(setting, parts));
    }))
}

/// Asserts that all implementations of the operation give the same answers and bytes: those
/// of the setting.
pub fn check(operation: Operation, setting: &Setting) {
    let after = |by| {
        let mut slices = Slices::new();
        call(operation, by, setting)?(&mut slices);
        Some((slices.answer, slices.bytes().to_vec()))
    };
    let wanted = after(By::Reference).expect("has every operation");
    let answer = match operation {
        Operation::Edit => RESULT,
        _ => setting.answer(),
    };
    let name = &setting.name;
    assert_eq!(wanted.0[0], answer.into(), "{operation:?}, {name}");
    for by in [By::Engine, By::Words] {
        let is_same = after(by).is_some_and(|given| given == wanted);
        assert!(is_same, "{operation:?} by {by:?}, {name}");
    }
}
