//! Random proposals: the proposer's own, renumbered or damaged.
use super::Random;

/// A proposal for an image of so many states from the proposer's own, which is empty if there is none.
pub fn classes(random: &mut Random, own: &[u8], states: usize) -> Vec<u8> {
    let mut classes = own.to_vec();
    classes.resize(states, 0);
    let count = classes.iter().copied().max().unwrap_or(0) as usize + 1;
    if random.percent(40) {
        let mut new: Vec<u8> = (0..count).map(|class| class as u8).collect();
        random.shuffle(&mut new[1..]);
        for class in &mut classes {
            *class = new[*class as usize];
        }
    }
    match random.below(8) {
        0 => {
            let state = random.below(states.max(1));
            if state < states {
                classes[state] = random.below(count + 1) as u8;
            }
        }
        1 => {
            let (from, to) = (random.below(count) as u8, random.below(count + 1) as u8);
            classes.iter_mut().filter(|class| **class == from).for_each(|class| *class = to);
        }
        2 => classes.iter_mut().for_each(|class| *class = class.wrapping_add(1)),
        3 => classes.push(0),
        4 => {
            classes.pop();
        }
        5 if random.percent(30) => classes = (0..states).map(|state| state as u8).collect(),
        _ => {}
    }
    classes
}
