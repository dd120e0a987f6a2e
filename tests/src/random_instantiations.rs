//! Random instantiations, alone and with files.

use crate::input::Input;
use crate::pseudorandom::Random;
use crate::reference::{
    allowed_subsets, best_cover, encode_instantiation, type_variables, untypable_attribute,
    Formula, Instantiation, Type, COLUMN_LENGTH, OUTPUT_START,
};

/// The most ordinary attributes of an instantiation that is disturbed, so that none of its
/// lists and none of its image's records gets more than 255.
pub const MOST_IN_DISTURBED: usize = 250;

/// The most ordinary attributes of an instantiation that gets one for each of some relations.
const MOST_BEFORE_FILLED: usize = 240;

/// The relation count of a file with these formulas: node 0 is a relation, which allows all subsets.
fn relation_count(formulas: &[Formula]) -> u8 {
    allowed_subsets(&formulas[0], 0).len().ilog2() as u8
}

/// Whether the relation belongs to the subset.
fn is_member(relation: u8, s: usize) -> bool {
    s >> relation & 1 == 1
}

/// The relations that have no attribute in the image: they are in no subset and in none of the
/// lists.
fn empty_relations(instantiation: &Instantiation, relations: u8) -> Vec<u8> {
    let subsets = instantiation.subsets.map(usize::from).into_iter();
    let all = subsets.chain(instantiation.lists.keys().copied());
    let filled = all.fold(0, |filled, s| filled | s);
    (0..relations)
        .filter(|&relation| !is_member(relation, filled))
        .collect()
}

/// The typable node whose columns allow the fewest subsets in all.
fn strictest_typable(formulas: &[Formula]) -> usize {
    let relations = relation_count(formulas);
    let allowed = |node: &usize| -> u32 {
        let columns = formulas[*node].chunks_exact(COLUMN_LENGTH);
        let bytes = columns.flat_map(|column| &column[..OUTPUT_START]);
        bytes.map(|byte| byte.count_ones()).sum()
    };
    let is_typable = |node: &usize| untypable_attribute(&formulas[*node], relations).is_none();
    let mut nodes: Vec<usize> = (0..formulas.len()).collect();
    nodes.sort_by_cached_key(allowed);
    nodes
        .into_iter()
        .find(is_typable)
        .expect("node 0 is typable")
}

impl Random {
    /// A node of an accepted file with these formulas: any, or most often the typable one
    /// whose columns allow the fewest subsets.
    pub fn likely_node(&mut self, formulas: &[Formula]) -> usize {
        match self.below(4) {
            0 => self.below(formulas.len()),
            _ => strictest_typable(formulas),
        }
    }

    /// An allowed subset of the column if there is one, else the empty one.
    pub fn allowed_subset(&mut self, formula: &Formula, column: usize) -> usize {
        match allowed_subsets(formula, column).as_slice() {
            [] => 0,
            allowed => allowed[self.below(allowed.len())],
        }
    }

    /// An instantiation of the formula: each special attribute has a subset that its
    /// column allows, and so many ordinary attributes are in lists of type variables.
    /// Where there is no such subset, the attribute has the empty one; where there is no
    /// variable, there is no list.
    pub fn instantiation(&mut self, formula: &Formula, ordinary: usize) -> Instantiation {
        let mut instantiation = Instantiation::default();
        for (column, subset) in (1..).zip(&mut instantiation.subsets) {
            *subset = self.allowed_subset(formula, column) as u8;
        }
        let variables = type_variables(formula);
        if !variables.is_empty() {
            for attribute in self.ordinary_attributes(ordinary) {
                let variable = variables[self.below(variables.len())];
                instantiation.insert(variable, attribute);
            }
        }
        instantiation
    }

    /// An ordinary attribute that no list has.
    fn new_attribute(&mut self, instantiation: &Instantiation) -> u32 {
        loop {
            let attribute = self.ordinary_attribute();
            if !instantiation
                .lists
                .values()
                .flatten()
                .any(|&each| each == attribute)
            {
                return attribute;
            }
        }
    }

    /// Gives every relation an attribute, if that can be: a relation that has none gets an ordinary
    /// one, in the list of a variable that it declares; where it declares none, the special
    /// attributes have the subsets of the best cover.
    fn fill(&mut self, formula: &Formula, relations: u8, instantiation: &mut Instantiation) {
        let variables = type_variables(formula);
        let declared = |relation| variables.iter().any(|&s| is_member(relation, s));
        let empty = empty_relations(instantiation, relations);
        if !empty.is_empty() && instantiation.lists.values().flatten().count() > MOST_BEFORE_FILLED
        {
            instantiation.lists.clear();
        }
        if let (false, Some(cover)) = (
            empty.into_iter().all(declared),
            best_cover(formula, relations),
        ) {
            instantiation.subsets = cover.subsets;
        }
        for relation in 0..relations {
            let is_empty = empty_relations(instantiation, relations).contains(&relation);
            if is_empty && declared(relation) {
                let with = variables.iter().filter(|&&s| is_member(relation, s));
                let with: Vec<usize> = with.copied().collect();
                let attribute = self.new_attribute(instantiation);
                instantiation.insert(with[self.below(with.len())], attribute);
            }
        }
    }

    /// An instantiation as above whose image gives every relation an attribute, if that can be.
    pub fn filled_instantiation(
        &mut self,
        formula: &Formula,
        relations: u8,
        ordinary: usize,
    ) -> Instantiation {
        let mut instantiation = self.instantiation(formula, ordinary);
        self.fill(formula, relations, &mut instantiation);
        instantiation
    }

    /// An instantiation as above whose image gives one relation no attribute, if that can be.
    pub fn emptied_instantiation(
        &mut self,
        formula: &Formula,
        relations: u8,
        ordinary: usize,
    ) -> Instantiation {
        let mut instantiation = self.instantiation(formula, ordinary);
        let relation = self.between(0, relations - 1);
        for (column, subset) in (1..).zip(&mut instantiation.subsets) {
            let mut without = allowed_subsets(formula, column);
            without.retain(|&s| !is_member(relation, s));
            if is_member(relation, usize::from(*subset)) && !without.is_empty() {
                *subset = without[self.below(without.len())] as u8;
            }
        }
        instantiation.lists.retain(|&s, _| !is_member(relation, s));
        instantiation
    }

    /// An instantiation as above, most often filled.
    pub fn likely_instantiation(
        &mut self,
        formula: &Formula,
        relations: u8,
        ordinary: usize,
    ) -> Instantiation {
        match self.below(16) {
            0 => self.emptied_instantiation(formula, relations, ordinary),
            1 => self.instantiation(formula, ordinary),
            _ => self.filled_instantiation(formula, relations, ordinary),
        }
    }

    /// A subset of m relations; sometimes the empty one, sometimes any of 256.
    fn likely_subset(&mut self, relations: u8) -> usize {
        match self.below(8) {
            0 => 0,
            1 => self.below(256),
            _ => self.below(1 << relations),
        }
    }

    /// An attribute that some list has, if there is one; else any ordinary one.
    fn listed_attribute(&mut self, instantiation: &Instantiation) -> u32 {
        let listed: Vec<u32> = instantiation.lists.values().flatten().copied().collect();
        match listed.as_slice() {
            [] => self.ordinary_attribute(),
            listed => listed[self.below(listed.len())],
        }
    }

    /// One of the subsets that have a list, if there is one; else any.
    fn listed_subset(&mut self, relations: u8, instantiation: &Instantiation) -> usize {
        let subsets: Vec<usize> = instantiation.lists.keys().copied().collect();
        match subsets.as_slice() {
            [] => self.likely_subset(relations),
            subsets => subsets[self.below(subsets.len())],
        }
    }

    /// Gives a special attribute any subset, empties a list, or puts an attribute in a
    /// list: one below 16, an ordinary one, or one that some list has.
    pub fn disturb_instantiation(&mut self, relations: u8, instantiation: &mut Instantiation) {
        let any = self.likely_subset(relations);
        let listed = self.listed_subset(relations, instantiation);
        match self.below(8) {
            0..=1 => instantiation.subsets[self.below(15)] = any as u8,
            2 => drop(instantiation.lists.insert(listed, Type::new())),
            3 => instantiation.insert(listed, self.below(16) as u32),
            4 => instantiation.insert(listed, self.ordinary_attribute()),
            5 => instantiation.insert(any, self.ordinary_attribute()),
            _ => instantiation.insert(any, self.listed_attribute(instantiation)),
        }
    }

    /// How many ordinary attributes an instantiation gets: most often few, sometimes up
    /// to the most.
    pub fn ordinary_count(&mut self, most: usize) -> usize {
        match self.below(8) {
            0 => self.below(most + 1),
            _ => self.below(12),
        }
    }

    /// A file with an instantiation of the formula of one of its nodes, which has at most
    /// so many ordinary attributes.
    pub fn file_with_instantiation(
        &mut self,
        relations: u8,
        count: u8,
        most: usize,
    ) -> (Input, usize, Instantiation) {
        let input = Input::new(self.likely_file(relations, count));
        let node = self.likely_node(input.formulas());
        let ordinary = self.ordinary_count(most);
        let formula = &input.formulas()[node];
        let instantiation = self.likely_instantiation(formula, relations, ordinary);
        (input, node, instantiation)
    }

    /// An instantiation of about 255 ordinary attributes, half of the time over 255, for a
    /// formula that has every subset as a type variable.
    pub fn instantiation_near_255(&mut self, formula: &Formula) -> Instantiation {
        let ordinary = 248 + self.below(16);
        self.instantiation(formula, ordinary)
    }

    /// Gives the instantiation two to nine lists that interleave, of over 255 attributes
    /// in all.
    pub fn overfill(&mut self, instantiation: &mut Instantiation) {
        let (lists, first) = (2 + self.below(8), self.below(256));
        let count = [256, 257, 260, 300, 450][self.below(5)];
        instantiation.lists.clear();
        for (place, attribute) in self.ordinary_attributes(count).into_iter().enumerate() {
            let s = first + 17 * (place % lists);
            instantiation.insert(s % 256, attribute);
        }
    }

    /// Bytes for an instantiation: subsets that the formula allows, a map of few bits,
    /// and then likely bytes, so many, as lists.
    pub fn instantiation_with_likely_lists(&mut self, formula: &Formula, length: usize) -> Vec<u8> {
        let instantiation = self.instantiation(formula, 0);
        let mut bytes = encode_instantiation(&instantiation);
        for _ in 0..self.below(4) {
            bytes[15 + self.below(32)] |= 1 << self.below(8);
        }
        bytes.extend(self.likely_bytes(length));
        bytes
    }
}
