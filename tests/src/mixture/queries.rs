//! Queries as text.

use super::files::length;
use crate::pseudorandom::Random;
use crate::query_examples::{extreme_queries, extreme_texts, query_cases};
use crate::random_queries::Faults;

/// Texts that are made once.
pub struct Queries {
    /// Texts of known answers, and texts at the limits.
    extreme: Vec<Vec<u8>>,
}

/// A number of relations, most often 1 to 8.
fn relations(random: &mut Random) -> u8 {
    match random.below(16) {
        0 => [0, 9, 10, 255, random.byte()][random.below(5)],
        _ => random.between(1, 8),
    }
}

/// A query of many prefixes, most often longer than a text may be.
fn long(random: &mut Random, relations: u8) -> Vec<u8> {
    let nodes = 55 + random.below(20);
    let mut query = random.query(relations, nodes, Faults::OneIn(100));
    while query.text().len() < 480 {
        query = query.with_set('S', 1..=random.between(1, 15));
    }
    query.text().into_bytes()
}

impl Queries {
    pub fn new() -> Self {
        let known = query_cases().into_iter().map(|case| case.text);
        let queries = extreme_queries().into_iter();
        let queries = queries.map(|query| query.text().into_bytes());
        Queries {
            extreme: known.chain(queries).chain(extreme_texts()).collect(),
        }
    }

    /// A number of relations and a text: a query, one with faults, a damaged one, one at the
    /// limits, or other bytes.
    pub fn query(&self, random: &mut Random) -> (u8, Vec<u8>) {
        let relations = relations(random);
        let within = relations.clamp(1, 8);
        let length = length(random);
        let kind = random.below(32);
        let mut text = match kind {
            0 => random.bytes(length),
            1..=2 => random.text_bytes(length),
            3..=5 => self.extreme[random.below(self.extreme.len())].clone(),
            6..=7 => long(random, within),
            _ => random.any_query(within).text().into_bytes(),
        };
        if (5..16).contains(&kind) {
            for _ in 0..random.between(1, 3) {
                random.disturb_text(&mut text);
            }
        }
        (relations, text)
    }
}
