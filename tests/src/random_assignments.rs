//! Random attributes, and assignments and schemas.

use crate::pseudorandom::Random;
use crate::reference::{infer, File, Formula, Inferred, Type};

impl Random {
    /// An ordinary attribute: most often a low one, sometimes any, sometimes one at a
    /// limit of a byte or of two.
    pub(crate) fn ordinary_attribute(&mut self) -> u32 {
        match self.below(8) {
            0 => [16, 255, 256, 65_535][self.below(4)],
            1..=3 => 16 + self.below(65_520) as u32,
            _ => 16 + self.below(40) as u32,
        }
    }

    /// So many different ordinary attributes.
    pub fn ordinary_attributes(&mut self, count: usize) -> Type {
        let mut attributes = Type::new();
        while attributes.len() < count {
            attributes.insert(self.ordinary_attribute());
        }
        attributes
    }

    /// The image of an instantiation of the formula, in which most often every relation has an
    /// attribute.
    pub fn image(&mut self, formula: &Formula, relations: u8, ordinary: usize) -> Vec<Type> {
        let instantiation = self.likely_instantiation(formula, relations, ordinary);
        instantiation.image(relations)
    }

    /// An attribute that some relation has, if there is one; one time in four any.
    fn likely_attribute(&mut self, assignment: &[Type]) -> u32 {
        let held: Vec<u32> = assignment.iter().flatten().copied().collect();
        match self.below(8) {
            0 => u32::from(self.attribute()),
            1 => self.ordinary_attribute(),
            _ if held.is_empty() => u32::from(self.attribute()),
            _ => held[self.below(held.len())],
        }
    }

    /// Adds an attribute to a relation, or drops it there, or moves it to another one.
    pub fn disturb_assignment(&mut self, assignment: &mut [Type]) {
        let attribute = self.likely_attribute(assignment);
        let relation = self.below(assignment.len());
        let had = assignment[relation].remove(&attribute);
        if !had {
            assignment[relation].insert(attribute);
        } else if self.below(2) == 0 {
            let other = self.below(assignment.len());
            assignment[other].insert(attribute);
        }
    }

    /// The bytes of m type records without ordinary attributes; one time in eight one is empty.
    pub fn records_of_maps(&mut self, relations: u8) -> Vec<u8> {
        let mut maps = self.bytes(2 * usize::from(relations));
        maps.iter_mut().step_by(2).for_each(|low| *low &= 0xfe);
        if self.below(8) == 0 {
            let start = 2 * self.below(usize::from(relations));
            maps[start..start + 2].fill(0);
        }
        maps
    }

    /// A file with the sets of an image for its last node, disturbed so many times.
    pub fn file_with_sets_near_an_image(&mut self, steps: u32) -> (Vec<u8>, File, Vec<Type>) {
        let (relations, count) = (self.between(1, 8), self.between(1, 20));
        let bytes = self.mild_file(relations, count);
        let Inferred { file, formulas } = infer(&bytes).expect("accepted");
        let ordinary = self.below(20);
        let mut sets = self.image(&formulas[formulas.len() - 1], relations, ordinary);
        for _ in 0..steps {
            self.disturb_assignment(&mut sets);
        }
        (bytes, file, sets)
    }
}
