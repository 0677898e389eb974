//! Tests of the bundler: ★11, and the fewest batches of all partitions of up to seven
//! collections.

use crate::bundle::bundle;
use crate::selftest::Bench;

pub fn run(bench: &mut Bench) {
    let batches = bundle(&["A", "A", "B", "A", "B", "A", "A"], 2);
    bench.same("★11", batches, [&[0, 1][..], &[3, 5], &[6], &[2, 4]]);
    for count in 1..=7 {
        let partitions = partitions(count);
        let mut wrong = Vec::new();
        for terms in &partitions {
            for ceiling in 1..=count {
                if !right(terms, ceiling, &partitions) {
                    wrong.push((terms.clone(), ceiling));
                }
            }
        }
        bench.same("fewest batches", wrong, Vec::<(Vec<usize>, usize)>::new());
    }
    bench.same("partitions of seven", partitions(7).len(), 877);
}

/// All partitions of so many items: the part of each item, parts in order of first appearance.
fn partitions(count: usize) -> Vec<Vec<usize>> {
    let mut all = vec![Vec::new()];
    for _ in 0..count {
        all = all
            .iter()
            .flat_map(|partition| one_item_more(partition))
            .collect();
    }
    all
}

fn one_item_more(partition: &[usize]) -> Vec<Vec<usize>> {
    let parts = number_of_parts(partition);
    let extended = (0..=parts).map(|part| [partition, &[part]].concat());
    extended.collect()
}

fn number_of_parts(partition: &[usize]) -> usize {
    partition.iter().max().map_or(0, |last| last + 1)
}

/// Whether each part has items of the same terms only, and no more than the ceiling.
fn allowed(partition: &[usize], terms: &[usize], ceiling: usize) -> bool {
    (0..number_of_parts(partition)).all(|part| {
        let items = (0..terms.len()).filter(|&item| partition[item] == part);
        let of_part: Vec<usize> = items.map(|item| terms[item]).collect();
        of_part.len() <= ceiling && of_part.iter().all(|found| *found == of_part[0])
    })
}

/// Whether the bundler's batches are an allowed partition, and none has fewer parts.
fn right(terms: &[usize], ceiling: usize, partitions: &[Vec<usize>]) -> bool {
    let batches = bundle(terms, ceiling);
    let mut found = vec![usize::MAX; terms.len()];
    for (number, batch) in batches.iter().enumerate() {
        batch.iter().for_each(|&item| found[item] = number);
    }
    let each_once = batches.concat().len() == terms.len() && !found.contains(&usize::MAX);
    let sorted = batches.iter().all(|batch| batch.is_sorted());
    let fewest = partitions
        .iter()
        .filter(|partition| number_of_parts(partition) <= batches.len())
        .filter(|partition| allowed(partition, terms, ceiling))
        .map(|partition| number_of_parts(partition))
        .min();
    each_once && sorted && allowed(&found, terms, ceiling) && fewest == Some(batches.len())
}
