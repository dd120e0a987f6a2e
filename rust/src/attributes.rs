//! Attributes and sets of special attributes as text.

use core::fmt::{self, Display, Formatter};

/// The special attributes are those up to this one, from 1.
pub const LAST_SPECIAL: u8 = 15;

/// An attribute as text: `a3` if it is special, else the number.
pub struct Attribute(pub u16);

impl Display for Attribute {
    fn fmt(&self, f: &mut Formatter<'_>) -> fmt::Result {
        match self.0 <= u16::from(LAST_SPECIAL) {
            true => write!(f, "a{}", self.0),
            false => write!(f, "{}", self.0),
        }
    }
}

/// The attributes of a set of special attributes, rising.
pub fn specials(set: u16) -> impl Iterator<Item = u16> {
    (1..=u16::from(LAST_SPECIAL)).filter(move |attribute| set >> attribute & 1 == 1)
}

/// The set of these attributes. Bit 0, which no set has, stands if one of them is not 1 to 15.
pub fn set_of(attributes: impl IntoIterator<Item = u8>) -> u16 {
    let bit = |attribute: u8| match attribute {
        1..=LAST_SPECIAL => 1 << attribute,
        _ => 1,
    };
    attributes
        .into_iter()
        .fold(0, |set, attribute| set | bit(attribute))
}

/// Writes attributes with a comma and a space between them.
pub fn write_attributes(
    f: &mut Formatter<'_>,
    attributes: impl Iterator<Item = u16>,
) -> fmt::Result {
    for (place, attribute) in attributes.enumerate() {
        let before = if place == 0 { "" } else { ", " };
        write!(f, "{before}{}", Attribute(attribute))?;
    }
    Ok(())
}
