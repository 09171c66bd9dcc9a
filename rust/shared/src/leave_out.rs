//! A list made shorter, as long as what matters stays.

/// How many items may still be tried, so that a long list comes to an end.
pub struct Budget(pub usize);

impl Budget {
    /// Whether there is enough for another try of so many items.
    pub fn spend(&mut self, items: usize) -> bool {
        // A try of no items costs something too.
        let cost = items + 1;
        let enough = self.0 >= cost;
        self.0 -= if enough { cost } else { self.0 };
        enough
    }
}

/// Leaves out stretches of the list, first long ones, at last single items.
/// `stays` says whether a shorter list will do, and may cut it at its end.
pub fn leave_out<T: Clone>(
    list: &mut Vec<T>,
    budget: &mut Budget,
    mut stays: impl FnMut(&mut Vec<T>) -> bool,
) {
    let mut stretch = list.len();
    while stretch > 0 {
        let mut start = 0;
        while start + stretch <= list.len() && budget.spend(list.len() - stretch) {
            let mut fewer = list.clone();
            fewer.drain(start..start + stretch);
            if stays(&mut fewer) {
                *list = fewer;
            } else {
                start += stretch;
            }
        }
        stretch /= 2;
    }
}

#[cfg(test)]
mod tests {
    use super::{leave_out, Budget};

    fn shortest(list: &[u8], budget: usize, stays: fn(&mut Vec<u8>) -> bool) -> Vec<u8> {
        let mut list = list.to_vec();
        leave_out(&mut list, &mut Budget(budget), stays);
        list
    }

    #[test]
    fn what_matters_is_left() {
        let list: Vec<u8> = (0..100).collect();
        let two = |list: &mut Vec<u8>| list.contains(&17) && list.contains(&80);
        assert_eq!(shortest(&list, 100_000, two), [17, 80]);
        assert_eq!(shortest(&list, 100_000, |_| true), []);
        assert_eq!(shortest(&list, 100_000, |_| false), list);
        assert_eq!(shortest(&[], 100_000, |_| true), []);
    }

    /// What stands behind the item that matters is cut at once.
    #[test]
    fn a_list_is_cut_at_its_end() {
        let list: Vec<u8> = (0..100).collect();
        let found = shortest(&list, 100_000, |list| {
            let place = list.iter().position(|&item| item == 40);
            list.truncate(place.map_or(0, |place| place + 1));
            place.is_some()
        });
        assert_eq!(found, [40]);
    }

    #[test]
    fn a_budget_ends() {
        let list: Vec<u8> = (0..100).collect();
        assert_eq!(shortest(&list, 0, |_| true), list);
        // The whole list and its first half are tried, and no more.
        assert_eq!(shortest(&list, 52, |list| !list.is_empty()), list[50..]);
        let mut budget = Budget(5);
        assert!(budget.spend(4) && !budget.spend(0));
    }
}
