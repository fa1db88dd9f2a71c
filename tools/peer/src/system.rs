//! Systems and tests as plain lists of transitions.

/// Most states that a system may have.
pub const MOST_STATES: usize = 64;
/// How many actions there are; they are numbered from 0.
pub const ACTIONS: u8 = 32;

/// Numbers of refusals, as CALLS.md has them.
#[derive(Clone, Copy, Debug, PartialEq, Eq)]
pub struct Refusal(pub u8);

/// A labelled transition system: states from 0, a start, transitions with an action or silent ones.
#[derive(Clone, Debug, PartialEq, Eq)]
pub struct System {
    pub count: usize,
    pub start: usize,
    /// For each state its transitions with an action, as action and target, rising, each once.
    pub visible: Vec<Vec<(u8, usize)>>,
    /// For each state the targets of its silent transitions, rising, each once.
    pub silent: Vec<Vec<usize>>,
}

impl System {
    /// A system with states and a start and no transition.
    pub fn new(count: usize, start: usize) -> System {
        assert!(start < count && count <= MOST_STATES);
        System { count, start, visible: vec![Vec::new(); count], silent: vec![Vec::new(); count] }
    }

    /// The blank system: one state, no transition.
    pub fn blank() -> System {
        System::new(1, 0)
    }

    /// Adds a transition, silent where there is no action. One that is there already changes nothing.
    pub fn add(&mut self, from: usize, label: Option<u8>, to: usize) {
        assert!(from < self.count && to < self.count);
        match label {
            Some(action) => {
                assert!(action < ACTIONS);
                if let Err(place) = self.visible[from].binary_search(&(action, to)) {
                    self.visible[from].insert(place, (action, to));
                }
            }
            None => {
                if let Err(place) = self.silent[from].binary_search(&to) {
                    self.silent[from].insert(place, to);
                }
            }
        }
    }

    /// Adds a state without transitions and tells its number, or none if there are 64 already.
    pub fn add_state(&mut self) -> Option<usize> {
        if self.count == MOST_STATES {
            return None;
        }
        self.visible.push(Vec::new());
        self.silent.push(Vec::new());
        self.count += 1;
        Some(self.count - 1)
    }

    /// All transitions as from, label and to: those with an action first, each in the order of the states.
    pub fn transitions(&self) -> Vec<(usize, Option<u8>, usize)> {
        let mut all = Vec::new();
        for (from, targets) in self.visible.iter().enumerate() {
            all.extend(targets.iter().map(|&(action, to)| (from, Some(action), to)));
        }
        for (from, targets) in self.silent.iter().enumerate() {
            all.extend(targets.iter().map(|&to| (from, None, to)));
        }
        all
    }

    /// The system with the same states and start and with these transitions.
    pub fn with_transitions(&self, transitions: &[(usize, Option<u8>, usize)]) -> System {
        let mut result = System::new(self.count, self.start);
        for &(from, label, to) in transitions {
            result.add(from, label, to);
        }
        result
    }

    /// The offer of a state: the set of the actions that lead somewhere from it.
    pub fn offer(&self, state: usize) -> u32 {
        self.visible[state].iter().fold(0, |set, &(action, _)| set | 1 << action)
    }

    /// Whether no silent transition leaves a state.
    pub fn is_stable(&self, state: usize) -> bool {
        self.silent[state].is_empty()
    }
}

/// A test: a system some of whose states pass.
#[derive(Clone, Debug, PartialEq, Eq)]
pub struct Test {
    pub system: System,
    pub passing: Vec<bool>,
}

#[cfg(test)]
mod tests {
    use super::*;

    #[test]
    fn transitions_stand_once_and_in_order() {
        let mut system = System::new(3, 1);
        system.add(1, Some(5), 2);
        system.add(1, Some(4), 2);
        system.add(1, Some(5), 2);
        system.add(1, Some(5), 0);
        system.add(0, None, 2);
        system.add(0, None, 1);
        system.add(0, None, 2);
        assert_eq!(system.visible[1], [(4, 2), (5, 0), (5, 2)]);
        assert_eq!(system.silent[0], [1, 2]);
        assert_eq!(system.offer(1), 0x30);
        assert_eq!(system.offer(0), 0);
        assert!(!system.is_stable(0) && system.is_stable(1));
        assert_eq!(system.with_transitions(&system.transitions()), system);
    }
}
