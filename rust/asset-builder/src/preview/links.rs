//! Which page leads to which.

use std::collections::{BTreeMap, BTreeSet};

/// Pages by row, each with at most one that follows.
pub struct Links {
    next: BTreeMap<u32, u32>,
    /// Every page once, each behind the one that leads to it where that can be.
    pub order: Vec<u32>,
    /// Pages that lead back to themselves, each ring from the page on that is met first.
    pub rings: Vec<Vec<u32>>,
}

impl Links {
    pub fn of(pages: &[(u32, Option<u32>)]) -> Links {
        let next: BTreeMap<u32, u32> = pages
            .iter()
            .filter_map(|(row, next)| Some((*row, (*next)?)))
            .collect();
        let (mut order, mut rings) = (Vec::new(), Vec::new());
        let mut met = BTreeSet::new();
        for (start, _) in pages {
            let first = order.len();
            let mut row = Some(*start);
            while let Some(at) = row.filter(|at| met.insert(*at)) {
                order.push(at);
                row = next.get(&at).copied();
            }
            // A page of this very walk closes a ring.
            let walk: &[u32] = &order[first..];
            let back = row.and_then(|row| walk.iter().position(|it| *it == row));
            rings.extend(back.map(|place| walk[place..].to_vec()));
        }
        Links { next, order, rings }
    }

    /// The page that follows.
    pub fn next(&self, row: u32) -> Option<u32> {
        self.next.get(&row).copied()
    }

    /// The ring that a page is in.
    pub fn ring_of(&self, row: u32) -> Option<usize> {
        self.rings.iter().position(|ring| ring.contains(&row))
    }
}

#[cfg(test)]
mod tests {
    use super::*;

    #[test]
    fn rings_are_found() {
        // 0 and 7 lead into the ring of 2 and 4; 5 leads to itself; 9 leads nowhere.
        let pages = [
            (0, Some(2)),
            (2, Some(4)),
            (4, Some(2)),
            (5, Some(5)),
            (7, Some(4)),
            (9, None),
        ];
        let links = Links::of(&pages);
        assert_eq!(links.order, [0, 2, 4, 5, 7, 9]);
        assert_eq!(links.rings, [vec![2, 4], vec![5]]);
        let rings: Vec<Option<usize>> = links.order.iter().map(|it| links.ring_of(*it)).collect();
        assert_eq!(rings, [None, Some(0), Some(0), Some(1), None, None]);
        assert_eq!((links.next(7), links.next(9)), (Some(4), None));
    }

    #[test]
    fn a_ring_that_is_met_from_its_middle_is_one_ring() {
        let pages = [(1, Some(3)), (2, Some(1)), (3, Some(2))];
        let links = Links::of(&pages);
        assert_eq!(links.order, [1, 3, 2]);
        assert_eq!(links.rings, [vec![1, 3, 2]]);
        assert!(Links::of(&[(1, None), (2, Some(1))]).rings.is_empty());
    }
}
