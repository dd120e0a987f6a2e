//! Instantiations.

use core::fmt::{self, Display, Formatter};

use super::List;
use crate::attributes::{write_attributes, LAST_SPECIAL};
use crate::{apply, Refusal, FORMULA_SIZE, MOST_RELATIONS, OUTPUT_SIZE, SCHEMA_SIZE};

/// Where the plane starts: before it are the subsets of the special attributes.
pub const PLANE_START: usize = LAST_SPECIAL as usize;
/// Where the lists start: after the subsets and the plane.
pub const LISTS_START: usize = PLANE_START + 32;

/// An instantiation (FORMAT, section 6): a subset of the relations for each special attribute, and
/// a list of ordinary attributes for some subsets.
///
/// Its text has a line for each special attribute whose subset is not empty, as `a1: 03`, and one
/// for each list, as `02: 20, 21`; subsets are hexadecimal, as in the listing.
///
/// ```
/// use type_formula::{Instantiation, Refusal};
///
/// let mut bytes = [0; 50];
/// bytes[0] = 0x03; // attribute 1 is in r0 and r1
/// bytes[15] = 1 << 0x02; // the subset 02, r1 alone, has a list
/// bytes[47..].copy_from_slice(&[1, 20, 0]); // of one attribute, 20
/// let instantiation = Instantiation::read(&bytes)?;
/// assert_eq!(instantiation.to_string(), "a1: 03\n02: 20\n");
///
/// assert_eq!(Instantiation::read(&bytes[..49]), Err(Refusal::InputTruncated));
/// # Ok::<(), Refusal>(())
/// ```
#[derive(Clone, Copy, Debug, PartialEq, Eq, Hash)]
pub struct Instantiation<'a> {
    bytes: &'a [u8],
}

impl<'a> Instantiation<'a> {
    /// The view of bytes that an operation read or wrote.
    pub(crate) fn of_read(bytes: &'a [u8]) -> Self {
        Instantiation { bytes }
    }

    /// The instantiation that the bytes are. Refusals: 14 to 19, and 20 where the empty subset has
    /// a list, since it is a type variable of no formula.
    pub fn read(bytes: &'a [u8]) -> Result<Self, Refusal> {
        // The formula of r0 allows every subset of eight relations, so that Apply refuses just
        // the bytes that are no instantiation of any formula, and those, last of all, that leave
        // one of the eight empty: a file may have fewer.
        let file = [MOST_RELATIONS as u8, 1, 1, 0];
        let (mut work, mut schema) = ([0; FORMULA_SIZE], [0; SCHEMA_SIZE]);
        let mut out = [0; OUTPUT_SIZE];
        match apply(&file, 0, bytes, &mut work, &mut schema, &mut out) {
            Ok(_) | Err(Refusal::EmptyImage) => Ok(Instantiation::of_read(bytes)),
            Err(refusal) => Err(refusal),
        }
    }

    /// The bytes of the instantiation.
    pub fn bytes(self) -> &'a [u8] {
        self.bytes
    }

    /// The subset given to a special attribute; none if the attribute is not 1 to 15.
    pub fn subset(self, attribute: u8) -> Option<u8> {
        let place = usize::from(attribute).checked_sub(1)?;
        self.bytes[..PLANE_START].get(place).copied()
    }

    /// The lists with their subsets, which rise.
    pub fn lists(self) -> Lists<'a> {
        Lists {
            plane: &self.bytes[PLANE_START..LISTS_START],
            subset: 0,
            rest: &self.bytes[LISTS_START..],
        }
    }
}

impl Display for Instantiation<'_> {
    fn fmt(&self, f: &mut Formatter<'_>) -> fmt::Result {
        for (attribute, &subset) in (1..).zip(&self.bytes[..PLANE_START]) {
            if subset != 0 {
                writeln!(f, "a{attribute}: {subset:02x}")?;
            }
        }
        for (subset, list) in self.lists() {
            write!(f, "{subset:02x}: ")?;
            write_attributes(f, list)?;
            writeln!(f)?;
        }
        Ok(())
    }
}

/// The lists of an instantiation, with their subsets.
#[derive(Clone, Debug)]
pub struct Lists<'a> {
    plane: &'a [u8],
    subset: usize,
    rest: &'a [u8],
}

impl<'a> Iterator for Lists<'a> {
    type Item = (u8, List<'a>);

    fn next(&mut self) -> Option<(u8, List<'a>)> {
        let stands = |&subset: &usize| self.plane[subset / 8] >> (subset % 8) & 1 == 1;
        let subset = (self.subset..8 * self.plane.len()).find(stands)?;
        let (list, rest) = List::split(self.rest);
        (self.subset, self.rest) = (subset + 1, rest);
        Some((subset as u8, list))
    }
}
