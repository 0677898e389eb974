//! The bundler: collections grouped by terms, the groups in order of first appearance, each cut
//! after every ceiling's worth.

use std::collections::BTreeMap;

/// The batches, each the indexes of its items, for the terms of the items in list order.
pub fn bundle<T: Ord>(terms: &[T], ceiling: usize) -> Vec<Vec<usize>> {
    let mut groups: BTreeMap<&T, Vec<usize>> = BTreeMap::new();
    for (index, item) in terms.iter().enumerate() {
        groups.entry(item).or_default().push(index);
    }
    let mut groups: Vec<Vec<usize>> = groups.into_values().collect();
    groups.sort_by_key(|group| group[0]);
    let batches = groups.iter().flat_map(|group| group.chunks(ceiling));
    batches.map(|batch| batch.to_vec()).collect()
}
