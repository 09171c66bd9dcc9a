//! Runs of equal neighbours, which are told once.

/// The items from `first` to `last`, both included, are equal.
#[derive(Clone, Copy, Debug, PartialEq, Eq)]
pub struct Run {
    pub first: usize,
    pub last: usize,
}

impl Run {
    pub fn count(self) -> usize {
        self.last - self.first + 1
    }
}

/// The runs of a list, from its front to its end; `equal` says which neighbours
/// belong together.
pub fn runs<T>(items: &[T], equal: impl Fn(&T, &T) -> bool) -> Vec<Run> {
    let mut runs: Vec<Run> = Vec::new();
    for index in 0..items.len() {
        match runs.last_mut() {
            Some(run) if equal(&items[run.last], &items[index]) => run.last = index,
            _ => runs.push(Run {
                first: index,
                last: index,
            }),
        }
    }
    runs
}
