//! Random systems, changes that no test notices, and systems made for long or large comparisons.

use std::collections::BTreeSet;

use crate::random::Random;
use crate::system::{System, Test, MOST_STATES};
use crate::words::MOST_LINES;

/// A random system: so many states, tries of transitions, actions below a bound, and silent ones in so many of a hundred.
pub fn random_system(random: &mut Random, states: usize, tries: usize, actions: usize, silent: usize) -> System {
    let mut system = System::new(states, random.below(states));
    for _ in 0..tries {
        let label = (!random.percent(silent)).then(|| random.below(actions) as u8);
        system.add(random.below(states), label, random.below(states));
    }
    system
}

/// A system of 1 to 5 states and the actions 0 to 2.
pub fn small(random: &mut Random) -> System {
    let states = random.between(1, 5);
    let tries = random.below(2 * states + 3);
    let silent = *random.pick(&[0, 15, 30, 60]);
    let actions = random.between(1, 3);
    random_system(random, states, tries, actions, silent)
}

/// A system of some size, with actions of the whole range.
pub fn medium(random: &mut Random) -> System {
    let states = random.between(2, 24);
    let tries = random.between(states, 3 * states);
    let silent = *random.pick(&[0, 5, 15, 30]);
    let actions = random.between(1, 6);
    let system = random_system(random, states, tries, actions, silent);
    let named: Vec<u8> = (0..actions).map(|_| random.below(32) as u8).collect();
    let lines: Vec<_> = system
        .transitions()
        .into_iter()
        .map(|(from, label, to)| (from, label.map(|action| named[action as usize]), to))
        .collect();
    system.with_transitions(&lines)
}

/// A test of at most so many states, with the actions 0 to 2.
pub fn test(random: &mut Random, most: usize) -> Test {
    let states = random.between(1, most);
    let tries = random.below(2 * states + 3);
    let silent = *random.pick(&[0, 10, 30]);
    let system = random_system(random, states, tries, 3, silent);
    let share = *random.pick(&[0, 20, 40, 80]);
    let passing = (0..states).map(|_| random.percent(share)).collect();
    Test { system, passing }
}

/// A test that follows a system: nearly the same transitions, and some states that pass, mostly not the start.
pub fn test_for(random: &mut Random, system: &System, most: usize) -> Test {
    let mut followed = System::new(system.count.min(most), 0);
    followed.start = system.start % followed.count;
    let silent = *random.pick(&[0, 0, 30, 100]);
    let kept = *random.pick(&[60, 80, 100]);
    for (from, label, to) in system.transitions() {
        if random.percent(if label.is_none() { silent } else { kept }) {
            followed.add(from % followed.count, label, to % followed.count);
        }
    }
    for _ in 0..random.below(3) {
        followed = nudged(random, &followed);
    }
    let share = *random.pick(&[10, 30, 60]);
    let start = followed.start;
    let passing = (0..followed.count).map(|state| random.percent(if state == start { 3 } else { share })).collect();
    Test { system: followed, passing }
}

/// How many lines a system would be written with.
pub fn lines(system: &System) -> usize {
    system.transitions().len()
}

/// The same system with its states numbered anew.
pub fn renumbered(random: &mut Random, system: &System) -> System {
    let order = random.order(system.count);
    let mut result = System::new(system.count, order[system.start]);
    for (from, label, to) in system.transitions() {
        result.add(order[from], label, order[to]);
    }
    result
}

/// Every state stands there once or several times; each copy has all transitions of the first, to some copies.
pub fn unfolded(random: &mut Random, system: &System) -> System {
    let mut copies: Vec<Vec<usize>> = Vec::new();
    let mut count = 0;
    for state in 0..system.count {
        let room = MOST_STATES - count - (system.count - state - 1);
        let wanted = random.between(1, 3).min(room);
        copies.push((count..count + wanted).collect());
        count += wanted;
    }
    let mut result = System::new(count, *random.pick(&copies[system.start]));
    for (from, label, to) in system.transitions() {
        for &copy in &copies[from] {
            result.add(copy, label, *random.pick(&copies[to]));
            if random.percent(20) {
                result.add(copy, label, *random.pick(&copies[to]));
            }
        }
    }
    result
}

/// States that nothing leads to are added; they lead anywhere.
pub fn with_unreachable(random: &mut Random, system: &System) -> System {
    let mut result = system.clone();
    for _ in 0..random.between(1, 3) {
        let Some(added) = result.add_state() else {
            return result;
        };
        for _ in 0..random.below(4) {
            let label = (!random.percent(30)).then(|| random.below(32) as u8);
            result.add(added, label, random.below(result.count));
        }
    }
    result
}

/// A state is put before another: a silent step leads to that one, and some of what led there leads to it.
pub fn with_step_before(random: &mut Random, system: &System) -> System {
    let mut result = system.clone();
    let Some(added) = result.add_state() else {
        return result;
    };
    let target = random.below(system.count);
    let mut lines = vec![(added, None, target)];
    for (from, label, to) in system.transitions() {
        let goes_over = to == target && random.percent(50);
        lines.push((from, label, if goes_over { added } else { to }));
    }
    if system.start == target && random.percent(50) {
        result.start = added;
    }
    let changed = result.with_transitions(&lines);
    // on a silent ring nothing is lost either: the ring is one step longer
    changed
}

/// A state gets a silent step to a copy of itself.
pub fn with_silent_copy(random: &mut Random, system: &System) -> System {
    let mut result = system.clone();
    let state = random.below(system.count);
    let Some(copy) = result.add_state() else {
        return result;
    };
    result.visible[copy] = result.visible[state].clone();
    result.silent[copy] = result.silent[state].clone();
    result.add(state, None, copy);
    result
}

/// Steps that can be taken with silent ones around them are added as steps of their own.
pub fn with_short_cuts(random: &mut Random, system: &System) -> System {
    let mut result = system.clone();
    for from in 0..system.count {
        for &over in &system.silent[from] {
            for &(action, to) in &system.visible[over] {
                if random.percent(60) {
                    result.add(from, Some(action), to);
                }
            }
            for &to in &system.silent[over] {
                if random.percent(60) {
                    result.add(from, None, to);
                }
            }
        }
        for &(action, over) in &system.visible[from] {
            for &to in &system.silent[over] {
                if random.percent(60) {
                    result.add(from, Some(action), to);
                }
            }
        }
    }
    result
}

/// Beside two silent ways, the first of which ends in a stable state, a third that offers what both offer.
pub fn with_larger_offer(random: &mut Random, system: &System) -> System {
    let mut result = system.clone();
    let candidates: Vec<(usize, usize, usize)> = (0..system.count)
        .flat_map(|from| {
            let ways = &system.silent[from];
            ways.iter()
                .filter(|&&way| system.is_stable(way))
                .flat_map(move |&way| ways.iter().map(move |&other| (from, way, other)))
        })
        .collect();
    if candidates.is_empty() {
        return result;
    }
    let &(from, way, other) = random.pick(&candidates);
    let Some(added) = result.add_state() else {
        return result;
    };
    for &(action, to) in system.visible[way].iter().chain(&system.visible[other]) {
        result.add(added, Some(action), to);
    }
    result.add(from, None, added);
    result
}

/// Changes a system so that no test notices. A change that would want too many lines is left out.
pub fn disguised(random: &mut Random, system: &System) -> System {
    let mut result = system.clone();
    for _ in 0..random.between(1, 4) {
        let next = match random.below(7) {
            0 => unfolded(random, &result),
            1 => with_unreachable(random, &result),
            2 => with_step_before(random, &result),
            3 => with_silent_copy(random, &result),
            4 => with_short_cuts(random, &result),
            5 => with_larger_offer(random, &result),
            _ => renumbered(random, &result),
        };
        if lines(&next) <= MOST_LINES {
            result = next;
        }
    }
    renumbered(random, &result)
}

/// Two systems that are alike.
pub fn alike(random: &mut Random) -> (System, System) {
    let base = if random.percent(60) { small(random) } else { medium(random) };
    let left = if random.percent(30) { base.clone() } else { disguised(random, &base) };
    let right = disguised(random, &base);
    (left, right)
}

/// A small change, which a test may notice or not.
pub fn nudged(random: &mut Random, system: &System) -> System {
    let mut result = system.clone();
    let mut transitions = system.transitions();
    let kind = random.below(6);
    if kind <= 2 && !transitions.is_empty() {
        let place = random.below(transitions.len());
        match kind {
            0 => {
                transitions.remove(place);
            }
            1 => transitions[place].2 = random.below(system.count),
            _ => transitions[place].1 = (!random.percent(30)).then(|| random.below(4) as u8),
        }
        return result.with_transitions(&transitions);
    }
    match kind {
        3 => result.start = random.below(system.count),
        4 => {
            let state = random.below(system.count);
            result.add(state, None, random.below(system.count));
        }
        _ => {
            let action = random.below(4) as u8;
            result.add(random.below(system.count), Some(action), random.below(system.count));
        }
    }
    result
}

/// A start from which one action leads into each of several rings of that action;
/// gives the system and the states of each ring.
pub fn clockwork(rings: &[usize], action: u8) -> (System, Vec<Vec<usize>>) {
    let count = 1 + rings.iter().sum::<usize>();
    let mut system = System::new(count, 0);
    let mut first = 1;
    let mut places = Vec::new();
    for &length in rings {
        system.add(0, Some(action), first);
        for step in 0..length {
            system.add(first + step, Some(action), first + (step + 1) % length);
        }
        places.push((first..first + length).collect());
        first += length;
    }
    (system, places)
}

/// Two systems that one trace splits on REACH, one action longer than the rings take to meet:
/// the other action is possible in the first except where every ring is at its last place, in the second always.
pub fn late_reach(random: &mut Random, rings: &[usize]) -> (System, System) {
    let (action, other) = two_actions(random);
    let build = |always: bool| {
        let (mut system, places) = clockwork(rings, action);
        let done = system.add_state().expect("there is room");
        for ring in &places {
            for &state in &ring[..ring.len() - 1] {
                system.add(state, Some(other), done);
            }
        }
        if always {
            let both = system.add_state().expect("there is room");
            system.add(0, Some(action), both);
            system.add(both, Some(action), both);
            system.add(both, Some(other), done);
        }
        system
    };
    (build(false), build(true))
}

/// Two systems that differ by their offers where every ring is at its last place, and nowhere before.
pub fn late_offer(random: &mut Random, rings: &[usize]) -> (System, System) {
    let (action, other) = two_actions(random);
    let build = |with_small: bool| {
        let (mut system, places) = clockwork(rings, action);
        let both = system.add_state().expect("there is room");
        system.add(0, Some(action), both);
        system.add(both, Some(action), both);
        system.add(both, Some(other), both);
        for ring in &places {
            system.add(ring[ring.len() - 1], Some(other), both);
        }
        if with_small {
            // always a state that offers the first action alone
            let small = system.add_state().expect("there is room");
            system.add(0, Some(action), small);
            system.add(small, Some(action), small);
        }
        system
    };
    (build(false), build(true))
}

/// Two systems of which one is convergent and the other not after the other action, where every ring is at its last place.
pub fn late_settle(random: &mut Random, rings: &[usize]) -> (System, System) {
    let (action, other) = two_actions(random);
    let build = |always: bool| {
        let (mut system, places) = clockwork(rings, action);
        let calm = system.add_state().expect("there is room");
        let restless = system.add_state().expect("there is room");
        system.add(restless, None, restless);
        for ring in &places {
            let (last, others) = ring.split_last().expect("no ring is empty");
            for &state in others {
                system.add(state, Some(other), restless);
            }
            system.add(*last, Some(other), if always { restless } else { calm });
        }
        system
    };
    (build(false), build(true))
}

fn two_actions(random: &mut Random) -> (u8, u8) {
    let action = random.below(32) as u8;
    let other = (action as usize + random.between(1, 31)) % 32;
    (action, other as u8)
}

/// A state that always goes on by two actions, and a row of states behind it:
/// after a trace the system is there by the places of one action among the last so many.
/// So it comes to 2 to that number different sets of states.
pub fn register(places: usize, first: u8, second: u8) -> System {
    let mut system = System::new(places + 1, 0);
    system.add(0, Some(first), 0);
    system.add(0, Some(second), 0);
    system.add(0, Some(second), 1);
    for state in 1..places {
        system.add(state, Some(first), state + 1);
        system.add(state, Some(second), state + 1);
    }
    system
}

/// The same with a new start, which one action leads from to the old one.
pub fn with_new_start(system: &System, action: u8) -> System {
    let mut result = system.clone();
    let added = result.add_state().expect("there is room");
    result.add(added, Some(action), system.start);
    result.start = added;
    result
}

/// A line of silent steps over all states in a random order, sometimes with one more that makes a ring of its end;
/// beside it a few transitions with an action.
pub fn silent_chain(random: &mut Random) -> System {
    let states = if random.percent(40) { MOST_STATES } else { random.between(2, MOST_STATES) };
    let order = random.order(states);
    let mut system = System::new(states, if random.percent(70) { order[0] } else { order[states / 2] });
    for two in order.windows(2) {
        if random.percent(99) {
            system.add(two[0], None, two[1]);
        }
    }
    if random.percent(50) {
        let last = order[states - 1];
        system.add(last, None, if random.percent(50) { last } else { order[random.below(states)] });
    }
    for _ in 0..random.below(9) {
        system.add(random.below(states), Some(random.below(3) as u8), random.below(states));
    }
    system.add(order[states - 1], Some(random.below(3) as u8), order[random.below(states)]);
    system
}

/// A system and a test that together count up: the system goes up by an action at which the test stays;
/// at its top another action takes it back and the test one state on. The last state of the test passes.
/// The run has as many steps as there are pairs before it; a slip makes it endless or stuck.
pub fn odometer(random: &mut Random, states: usize, places: usize, with_slip: bool) -> (System, Test) {
    let (up, carry) = two_actions(random);
    let mut system = System::new(states, 0);
    for state in 0..states - 1 {
        system.add(state, Some(up), state + 1);
    }
    system.add(states - 1, Some(carry), 0);
    let slip = random.below(places - 1);
    let mut counter = System::new(places, 0);
    for place in 0..places - 1 {
        if !with_slip || place != slip || random.percent(70) {
            counter.add(place, Some(up), place);
        }
        counter.add(place, Some(carry), place + 1);
    }
    if with_slip && random.percent(70) {
        counter.add(slip, Some(carry), random.below(slip + 1));
    }
    let passing = (0..places).map(|place| place == places - 1).collect();
    (system, Test { system: counter, passing })
}

/// A big random system of 64 states with as many lines as are allowed, or some fewer.
pub fn largest(random: &mut Random) -> System {
    let actions = random.between(1, 32);
    let silent = *random.pick(&[0, 0, 3, 10]);
    let wanted = if random.percent(50) { MOST_LINES } else { random.between(64, MOST_LINES) };
    let mut system = System::new(MOST_STATES, random.below(MOST_STATES));
    let mut chosen = BTreeSet::new();
    while chosen.len() < wanted {
        let label = (!random.percent(silent)).then(|| random.below(actions) as u8);
        let line = (random.below(MOST_STATES), label, random.below(MOST_STATES));
        if chosen.insert(line) {
            system.add(line.0, line.1, line.2);
        }
    }
    system
}

#[cfg(test)]
mod tests {
    use super::*;
    use crate::comparison::{Answer, Comparison};
    use crate::splits::Ground;

    fn compared(left: &System, right: &System) -> (Answer, usize, usize) {
        let mut comparison = Comparison::open(left, right);
        if comparison.ask().answer == Answer::Open {
            comparison.advance(2048).unwrap();
        }
        let reply = comparison.ask();
        (reply.answer, reply.rows, comparison.trace().len())
    }

    #[test]
    fn disguises_are_not_noticed() {
        let mut random = Random::new(1);
        let mut full = 0;
        for _ in 0..2000 {
            let (left, right) = alike(&mut random);
            assert!(lines(&left) <= MOST_LINES && lines(&right) <= MOST_LINES);
            match compared(&left, &right).0 {
                Answer::Alike => (),
                Answer::Full => full += 1,
                answer => panic!("{answer:?} {left:?} {right:?}"),
            }
        }
        assert!(full < 200);
    }

    #[test]
    fn rings_take_long_to_meet() {
        let mut random = Random::new(2);
        // rings of 5 and 7 are both at their last place after 35 steps into them, that is a trace of 35
        let (left, right) = late_offer(&mut random, &[5, 7]);
        let (answer, rows, length) = compared(&left, &right);
        assert!(matches!(answer, Answer::Apart(split) if matches!(split.ground, Ground::Offer(_))));
        // rows: the trace of every length below 35, and what the other action comes to
        assert_eq!((rows, length), (36, 35));
        let (left, right) = late_settle(&mut random, &[5, 7]);
        let (answer, _, length) = compared(&left, &right);
        assert!(matches!(answer, Answer::Apart(split) if split.ground == Ground::Settle));
        assert_eq!(length, 36);
        let (left, right) = late_reach(&mut random, &[5]);
        let (answer, _, length) = compared(&left, &right);
        assert!(matches!(answer, Answer::Apart(split) if split.ground == Ground::Reach));
        assert_eq!(length, 6);
        let (left, right) = late_reach(&mut random, &[5, 7]);
        assert_eq!(compared(&right, &left).2, 36);
    }

    #[test]
    fn registers_come_to_powers_of_two() {
        for places in [3, 10, 11] {
            let system = register(places, 0, 1);
            assert_eq!(compared(&system, &system), (Answer::Alike, 1 << places, 0));
        }
        let eleven = register(11, 4, 9);
        let more = with_new_start(&eleven, 4);
        assert_eq!(compared(&more, &more), (Answer::Full, 2048, 0));
        let ten = with_new_start(&register(10, 4, 9), 4);
        assert_eq!(compared(&ten, &ten), (Answer::Alike, 1025, 0));
    }

    #[test]
    fn an_odometer_runs_through_all_pairs() {
        let mut random = Random::new(3);
        let verdict = |states, places, with_slip, random: &mut Random| {
            let (system, test) = odometer(random, states, places, with_slip);
            let verdict = crate::experiments::experiment(&system, &test).unwrap();
            (verdict.may, verdict.must)
        };
        assert_eq!(verdict(3, 2, false, &mut random), (true, true));
        assert_eq!(verdict(62, 33, false, &mut random), (true, true));
        let slips: Vec<_> = (0..40).map(|_| verdict(62, 33, true, &mut random)).collect();
        for wanted in [(true, true), (true, false), (false, false)] {
            assert!(slips.contains(&wanted), "{slips:?}");
        }
    }

    #[test]
    fn rings_meet_by_hand() {
        let (ring, places) = clockwork(&[2, 3], 7);
        assert_eq!(places, [vec![1, 2], vec![3, 4, 5]]);
        assert_eq!(ring.visible[0], [(7, 1), (7, 3)]);
        assert_eq!(ring.visible[2], [(7, 1)]);
        assert_eq!(ring.visible[5], [(7, 3)]);
        // the start and six meetings
        assert_eq!(compared(&ring, &ring), (Answer::Alike, 7, 0));
    }
}
