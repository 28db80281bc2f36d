//! Good arguments spoiled in one to four ways, so that the order of the refusals shows (document
//! 01, "Numbers given back": which number wins).

use crate::random::Random;

/// Makes good arguments bad in one way.
pub type Fault<T> = fn(&mut T, &mut Random);

/// The arguments as they are, with each fault alone, with each two faults, and with each fault and two
/// others drawn. Faults come in the order of their list, in which none undoes all that came before.
pub fn all<T: Clone>(good: &T, faults: &[Fault<T>], random: &mut Random) -> Vec<T> {
    let mut list = vec![good.clone()];
    for first in 0..faults.len() {
        list.push(spoiled(good, faults, &[first], random));
        for second in first + 1..faults.len() {
            list.push(spoiled(good, faults, &[first, second], random));
        }
        let two = [draw(faults, random), draw(faults, random)];
        list.push(spoiled(good, faults, &[first, two[0], two[1]], random));
    }
    list
}

/// The arguments as they are in half the cases, else with one, two or three faults drawn.
pub fn some<T: Clone>(good: T, faults: &[Fault<T>], random: &mut Random) -> T {
    let count = match random.below(10) {
        0..=4 => 0,
        5..=7 => 1,
        8 => 2,
        _ => 3,
    };
    let chosen: Vec<usize> = (0..count).map(|_| draw(faults, random)).collect();
    spoiled(&good, faults, &chosen, random)
}

/// The arguments with one, two, three or four faults drawn, all of them different.
pub fn several<T: Clone>(good: T, faults: &[Fault<T>], random: &mut Random) -> T {
    let count = (1 + random.below(4) as usize).min(faults.len());
    let mut chosen: Vec<usize> = Vec::new();
    while chosen.len() < count {
        let place = draw(faults, random);
        if !chosen.contains(&place) {
            chosen.push(place);
        }
    }
    spoiled(&good, faults, &chosen, random)
}

fn draw<T>(faults: &[Fault<T>], random: &mut Random) -> usize {
    random.below(faults.len() as u64) as usize
}

fn spoiled<T: Clone>(good: &T, faults: &[Fault<T>], chosen: &[usize], random: &mut Random) -> T {
    let mut spoiled = good.clone();
    for (place, fault) in faults.iter().enumerate() {
        if chosen.contains(&place) {
            fault(&mut spoiled, random);
        }
    }
    spoiled
}

#[cfg(test)]
mod tests {
    use super::*;

    const FAULTS: [Fault<Vec<u8>>; 4] = [
        |list, _| list.push(0),
        |list, _| list.push(1),
        |list, _| list.push(2),
        |list, _| list.push(3),
    ];

    #[test]
    fn each_alone_and_each_two() {
        let list = all(&vec![], &FAULTS, &mut Random::new(1));
        assert_eq!(list[0], []);
        for first in 0..4 {
            assert!(list.contains(&vec![first]));
            for second in first + 1..4 {
                assert!(list.contains(&vec![first, second]));
            }
        }
        assert!(list.iter().all(|faults| faults.is_sorted()));
        assert!(list.iter().any(|faults| faults.len() == 3));
    }

    #[test]
    fn one_to_four_at_random() {
        let mut random = Random::new(3);
        let lists: Vec<Vec<u8>> = (0..200)
            .map(|_| several(vec![], &FAULTS, &mut random))
            .collect();
        for count in 1..5 {
            assert!(lists.iter().any(|list| list.len() == count));
        }
        for list in lists {
            let mut different = list.clone();
            different.dedup();
            assert!(list.is_sorted() && different == list && !list.is_empty());
        }
        assert_eq!(several(vec![], &FAULTS[..1], &mut random), [0]);
    }

    #[test]
    fn none_to_three_at_random() {
        let mut random = Random::new(2);
        let counts: Vec<usize> = (0..200)
            .map(|_| some(vec![], &FAULTS, &mut random).len())
            .collect();
        assert!((0..4).all(|count| counts.contains(&count)));
        assert!(counts.iter().all(|count| *count < 4));
    }
}
