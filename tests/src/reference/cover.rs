//! Covers: a subset for each special attribute and some type variables, so that every relation has
//! an attribute, with the fewest memberships. Written plainly from document 02, Point 4, twice: by
//! taking up the best cover so far, and by the sets of relations that are filled.

use std::cmp::Reverse;
use std::collections::BinaryHeap;

use super::{allowed_subsets, type_variables, Formula, COLUMNS};

/// The special attributes.
const SPECIAL: usize = COLUMNS - 1;
/// Up to so many relations a cover is sought by taking up the best so far.
const FEW_RELATIONS: u8 = 3;

/// How many relations belong to a subset.
pub fn members(subset: usize) -> usize {
    subset.count_ones() as usize
}

/// What there is to choose from.
#[derive(Clone, Debug)]
pub struct Choices {
    pub relations: u8,
    /// The allowed subsets of attributes 1 to 15, in that order, rising.
    pub special: [Vec<usize>; SPECIAL],
    /// The type variables, rising.
    pub variables: Vec<usize>,
}

/// What is chosen, or the first part of it. Covers are ordered as document 02 says: by memberships,
/// then by the subsets, then by the variables; the lists are compared whole.
#[derive(Clone, Debug, Default, PartialEq, Eq, PartialOrd, Ord)]
pub struct Cover {
    pub memberships: usize,
    /// The subset of each of attributes 1 to 15; empty where none is chosen yet.
    pub subsets: [u8; SPECIAL],
    /// The variables taken, rising.
    pub variables: Vec<usize>,
}

impl Cover {
    /// With the subset for the attribute at this place.
    fn with_subset(&self, place: usize, subset: usize) -> Cover {
        let mut next = self.clone();
        next.memberships += members(subset);
        next.subsets[place] = subset as u8;
        next
    }

    /// With the variable, which is above those taken.
    fn with_variable(&self, variable: usize) -> Cover {
        let mut next = self.clone();
        next.memberships += members(variable);
        next.variables.push(variable);
        next
    }
}

impl Choices {
    /// What a formula of so many relations lets choose.
    pub fn of(formula: &Formula, relations: u8) -> Self {
        Choices {
            relations,
            special: std::array::from_fn(|place| allowed_subsets(formula, place + 1)),
            variables: type_variables(formula),
        }
    }

    /// All relations.
    fn all(&self) -> usize {
        (1 << self.relations) - 1
    }

    /// The same but that an attribute which may have no relation, and otherwise only the subsets of
    /// type variables, has none: an ordinary attribute can have the subset in its place, with as
    /// many memberships, and then the empty subset is the lower one.
    fn without_needless(mut self) -> Self {
        let mut is_ordinary = [false; 256];
        is_ordinary[0] = true;
        self.variables.iter().for_each(|&s| is_ordinary[s] = true);
        for subsets in &mut self.special {
            if subsets.contains(&0) && subsets.iter().all(|&s| is_ordinary[s]) {
                *subsets = vec![0];
            }
        }
        self
    }

    /// The parts of covers that go on from one, each with the relations that it fills: the
    /// attribute at the place gets one of its subsets; from place 15 on a variable is left or taken.
    fn steps(&self, place: usize, cover: &Cover, filled: usize) -> Vec<(Cover, usize)> {
        if let Some(subsets) = self.special.get(place) {
            let with = |&s: &usize| (cover.with_subset(place, s), filled | s);
            return subsets.iter().map(with).collect();
        }
        let variable = self.variables[place - SPECIAL];
        let taken = (cover.with_variable(variable), filled | variable);
        vec![(cover.clone(), filled), taken]
    }

    /// The best cover: the best part of all is taken up first, and no part of a cover is better
    /// than what goes on from it. Of those that have come to the same place and fill the same
    /// relations only the first, which is the best, goes on.
    pub fn best_by_search(&self) -> Option<Cover> {
        let places = SPECIAL + self.variables.len();
        let mut waiting = BinaryHeap::from([Reverse((Cover::default(), 0, 0))]);
        let mut met = vec![vec![false; 1 << self.relations]; places + 1];
        while let Some(Reverse((cover, place, filled))) = waiting.pop() {
            if std::mem::replace(&mut met[place][filled], true) {
                continue;
            }
            if place < places {
                let steps = self.steps(place, &cover, filled).into_iter();
                waiting.extend(steps.map(|(next, filled)| Reverse((next, place + 1, filled))));
            } else if filled == self.all() {
                return Some(cover);
            }
        }
        None
    }

    /// The best cover: for each set of relations the best part that fills just these, attribute by
    /// attribute from 1 up, and then variable by variable.
    pub fn best_by_sets(&self) -> Option<Cover> {
        let mut best = vec![None; 1 << self.relations];
        best[0] = Some(Cover::default());
        for (place, subsets) in self.special.iter().enumerate() {
            let before = std::mem::replace(&mut best, vec![None; 1 << self.relations]);
            for (filled, cover) in before.iter().enumerate() {
                for &subset in subsets.iter().filter(|_| cover.is_some()) {
                    let next = |cover: &Cover| cover.with_subset(place, subset);
                    improve(cover, subset, next, &mut best[filled | subset]);
                }
            }
        }
        for &variable in &self.variables {
            for filled in (0..best.len()).filter(|filled| variable & !filled != 0) {
                let (before, after) = best.split_at_mut(filled + 1);
                let place = &mut after[(filled | variable) - filled - 1];
                let next = |cover: &Cover| cover.with_variable(variable);
                improve(&before[filled], variable, next, place);
            }
        }
        best.pop().flatten()
    }

    /// The sets of relations that can be filled, as a list by number: all variables are taken.
    fn filled_sets(&self) -> Vec<bool> {
        let mut sets = vec![false; 1 << self.relations];
        sets[self.variables.iter().fold(0, |all, s| all | s)] = true;
        for subsets in &self.special {
            let mut next = vec![false; sets.len()];
            for filled in (0..sets.len()).filter(|&filled| sets[filled]) {
                subsets.iter().for_each(|s| next[filled | s] = true);
            }
            sets = next;
        }
        sets
    }

    /// How many covers there are with the fewest memberships; 0 where there is none.
    pub fn count_best(&self) -> u64 {
        let mut best = vec![None; 1 << self.relations];
        best[0] = Some((0, 1));
        for subsets in &self.special {
            let before = std::mem::replace(&mut best, vec![None; 1 << self.relations]);
            for (filled, counted) in before.iter().enumerate() {
                for &subset in subsets {
                    count(*counted, subset, &mut best[filled | subset]);
                }
            }
        }
        for &variable in &self.variables {
            let before = best.clone();
            for (filled, counted) in before.iter().enumerate() {
                count(*counted, variable, &mut best[filled | variable]);
            }
        }
        best.pop().flatten().map_or(0, |(_, number)| number)
    }
}

/// Puts the cover with the subset in the place if it is better than what is there.
fn improve(
    cover: &Option<Cover>,
    subset: usize,
    next: impl Fn(&Cover) -> Cover,
    place: &mut Option<Cover>,
) {
    let Some(cover) = cover else { return };
    let memberships = cover.memberships + members(subset);
    match place {
        Some(old) if old.memberships < memberships => {}
        Some(old) => {
            let next = next(cover);
            if next < *old {
                *old = next;
            }
        }
        None => *place = Some(next(cover)),
    }
}

/// Memberships, and how many parts of covers have so few.
type Counted = Option<(usize, u64)>;

/// Counts the parts that go on with the subset: they take the place of those with more memberships.
fn count(before: Counted, subset: usize, place: &mut Counted) {
    let Some((memberships, number)) = before else {
        return;
    };
    let memberships = memberships + members(subset);
    match place {
        Some((fewest, _)) if *fewest < memberships => {}
        Some((fewest, counted)) if *fewest == memberships => *counted += number,
        _ => *place = Some((memberships, number)),
    }
}

/// The best cover of a formula of so many relations, if there is one.
pub fn best_cover(formula: &Formula, relations: u8) -> Option<Cover> {
    let choices = Choices::of(formula, relations);
    match relations {
        ..=FEW_RELATIONS => choices.best_by_search(),
        _ => choices.without_needless().best_by_sets(),
    }
}

/// Whether every relation can have an attribute; each special attribute's column allows something.
pub fn can_be_filled(formula: &Formula, relations: u8) -> bool {
    let choices = Choices::of(formula, relations).without_needless();
    choices.filled_sets().pop() == Some(true)
}
