//! The reference alone: covers with the fewest memberships, sought in two ways and by trying all.

use type_formula_tests::examples::smallest_files;
use type_formula_tests::pseudorandom::Random;
use type_formula_tests::random_covers::FileKind;
use type_formula_tests::reference::{
    best_cover, blocked_attribute, can_be_filled, infer, members, untypable_attribute, Choices,
    Cover,
};

/// Columns without a special attribute's needs: each allows the empty subset alone.
fn without_special(relations: u8, variables: Vec<usize>) -> Choices {
    Choices {
        relations,
        special: std::array::from_fn(|_| vec![0]),
        variables,
    }
}

/// The subsets of so many relations that are bits of a number: s stands for bit s.
fn subsets_of(relations: u8, bits: usize) -> Vec<usize> {
    (0..1 << relations).filter(|s| bits >> s & 1 == 1).collect()
}

/// Every list of variables, with the relations that it fills.
fn variable_lists(choices: &Choices) -> Vec<(Vec<usize>, usize)> {
    let count = choices.variables.len();
    let list = |taken: usize| {
        let chosen = (0..count).filter(|place| taken >> place & 1 == 1);
        let chosen: Vec<usize> = chosen.map(|place| choices.variables[place]).collect();
        let filled = chosen.iter().fold(0, |filled, s| filled | s);
        (chosen, filled)
    };
    (0..1 << count).map(list).collect()
}

/// All covers in which attributes from 3 on have their lowest allowed subset.
fn all_covers(choices: &Choices) -> Vec<Cover> {
    let lists = variable_lists(choices);
    let (mut covers, mut subsets) = (Vec::new(), choices.special.each_ref().map(|all| all[0]));
    let later = subsets[2..].iter().fold(0, |filled, s| filled | s);
    for &first in &choices.special[0] {
        for &second in &choices.special[1] {
            (subsets[0], subsets[1]) = (first, second);
            for (variables, filled) in &lists {
                if later | first | second | filled == (1 << choices.relations) - 1 {
                    let all = subsets.iter().chain(variables);
                    covers.push(Cover {
                        memberships: all.map(|&s| members(s)).sum(),
                        subsets: subsets.map(|s| s as u8),
                        variables: variables.clone(),
                    });
                }
            }
        }
    }
    covers
}

/// Asserts that both ways give the best of all covers, and that those with as few memberships are
/// counted. Gives how many there are.
fn assert_best(choices: &Choices) -> u64 {
    let covers = all_covers(choices);
    let best = covers.iter().min();
    assert_eq!(choices.best_by_search().as_ref(), best, "{choices:?}");
    assert_eq!(choices.best_by_sets().as_ref(), best, "{choices:?}");
    let is_as_few = |cover: &&Cover| Some(cover.memberships) == best.map(|best| best.memberships);
    let as_few = covers.iter().filter(is_as_few).count() as u64;
    assert_eq!(choices.count_best(), as_few, "{choices:?}");
    as_few
}

/// Counts of covers: none, one, several.
#[derive(Default)]
struct Counts {
    none: u64,
    one: u64,
    several: u64,
}

impl Counts {
    fn count(&mut self, covers: u64) {
        match covers {
            0 => self.none += 1,
            1 => self.one += 1,
            _ => self.several += 1,
        }
    }

    /// Prints the counts and asserts that several covers are at least a tenth of all, and that the
    /// others are at least so many.
    fn assert_each(&self, name: &str, least: u64) {
        let Counts { none, one, several } = *self;
        println!("{name}: {none} without, {one} with one, {several} with several best covers");
        assert!(several >= (none + one + several) / 10);
        assert!(none >= least && one >= least);
    }
}

/// Every column 0, 1 and 2 of one or two relations.
#[test]
fn every_three_columns_of_one_and_two_relations() {
    let mut counts = Counts::default();
    for relations in 1..=2 {
        let columns = 1 << (1 << relations);
        for variables in 0..columns / 2 {
            for first in 1..columns {
                for second in 1..columns {
                    let mut choices =
                        without_special(relations, subsets_of(relations, variables << 1));
                    choices.special[0] = subsets_of(relations, first);
                    choices.special[1] = subsets_of(relations, second);
                    counts.count(assert_best(&choices));
                }
            }
        }
    }
    counts.assert_each("one and two relations", 40);
}

/// Every column 0 and every column 1 of three relations.
#[test]
fn every_two_columns_of_three_relations() {
    let mut counts = Counts::default();
    for variables in 0..128 {
        for first in 1..256 {
            let mut choices = without_special(3, subsets_of(3, variables << 1));
            choices.special[0] = subsets_of(3, first);
            counts.count(assert_best(&choices));
        }
    }
    counts.assert_each("three relations", 500);
}

/// Random columns 0, 1 and 2 of three relations, and a later one that allows one subset.
#[test]
fn random_columns_of_three_relations() {
    let mut random = Random::new(700);
    let mut counts = Counts::default();
    for _ in 0..20_000 {
        let [variables, first, second] = [128, 256, 256].map(|bound| random.below(bound));
        let mut choices = without_special(3, subsets_of(3, variables << 1));
        choices.special[0] = subsets_of(3, first.max(1));
        choices.special[1] = subsets_of(3, second.max(1));
        if random.below(4) == 0 {
            choices.special[2 + random.below(13)] = vec![random.below(8)];
        }
        counts.count(assert_best(&choices));
    }
    counts.assert_each("random columns of three relations", 5);
}

/// Random columns of up to eight relations: both ways give the same, also where some attributes are
/// like the ordinary ones; in at least a tenth there are several best covers.
#[test]
fn both_ways_agree_on_random_columns() {
    let mut random = Random::new(701);
    let mut counts = Counts::default();
    for round in 0..1_200 {
        let relations = 1 + (round % 8) as u8;
        let choices = random.choices(relations);
        let best = choices.best_by_search();
        assert_eq!(choices.best_by_sets(), best, "{choices:?}");
        let count = choices.count_best();
        assert_eq!(count > 0, best.is_some());
        if let Some(cover) = best {
            let all = cover.subsets.map(usize::from).into_iter();
            let all: Vec<usize> = all.chain(cover.variables).collect();
            let filled = all.iter().fold(0, |filled, s| filled | s);
            assert_eq!(filled, (1 << relations) - 1);
            let counted: usize = all.into_iter().map(members).sum();
            assert_eq!(counted, cover.memberships);
        }
        counts.count(count);
    }
    counts.assert_each("random columns", 50);
}

/// Of every kind of file: the best cover is that of all choices, sought in both ways; there is one
/// where every relation can be filled.
#[test]
fn formulas_have_the_best_cover_of_their_choices() {
    let mut random = Random::new(702);
    let (mut filled, mut empty, mut blocked) = (0, 0, 0);
    for round in 0..1_500 {
        let relations = random.between(1, if round % 10 == 0 { 8 } else { 5 });
        let kind = FileKind::ALL[round % FileKind::ALL.len()];
        let inferred = infer(&random.file_of_kind(kind, relations)).expect("accepted");
        let formula = inferred.formulas.last().expect("a node");
        let attribute = untypable_attribute(formula, relations);
        if blocked_attribute(formula).is_some() {
            assert_eq!(attribute, blocked_attribute(formula));
            blocked += 1;
            continue;
        }
        let best = best_cover(formula, relations);
        let choices = Choices::of(formula, relations);
        assert_eq!(choices.best_by_sets(), best);
        if relations <= 6 {
            assert_eq!(choices.best_by_search(), best);
        }
        assert_eq!(can_be_filled(formula, relations), best.is_some());
        assert_eq!(attribute, best.is_none().then_some(0));
        match best {
            Some(_) => filled += 1,
            None => empty += 1,
        }
    }
    println!("{filled} filled, {empty} not filled, {blocked} blocked");
    assert!(filled >= 500 && empty >= 100 && blocked >= 100);
}

/// Every node of every small file: where no column is blocked, all covers are tried.
#[test]
fn all_smallest_files_have_the_best_cover() {
    let mut counts = Counts::default();
    for bytes in smallest_files() {
        let inferred = infer(&bytes).expect("accepted");
        for formula in &inferred.formulas {
            if blocked_attribute(formula).is_none() {
                let mut choices = Choices::of(formula, bytes[0]);
                choices.special[2..].fill(vec![0]);
                counts.count(assert_best(&choices));
            }
        }
    }
    counts.assert_each("smallest files", 100);
}
