//! Lists of the forms that are not used any more.

use reference::random::Random;

/// What the fields of such a form had in range, each with each: PEXT of one portion
/// and of two, and UQRSHRNB alone.
pub fn retired_values(form: u32) -> [Vec<u32>; 6] {
    let (sizes, ranges) = match form {
        0 => (vec![8, 16, 32, 64], [0..4, 8..16, 0..16]),
        1 => (vec![8, 16, 32, 64], [0..2, 8..16, 0..16]),
        // Of the shifts those that every size has.
        5 => (vec![8, 16, 32], [1..9, 0..32, 0..32]),
        _ => panic!("form {form} is in use"),
    };
    let [second, third, fourth] = ranges.map(|range| range.collect());
    [sizes, second, third, fourth, vec![0], vec![0]]
}

/// A list that was in range.
pub fn retired_list(random: &mut Random, form: u32) -> Vec<u32> {
    let mut numbers = vec![form];
    for values in retired_values(form) {
        numbers.push(random.pick(&values));
    }
    numbers
}
