//! Every line of some transactions, one after the other: a search for a line
//! that knows no rule.

/// Steps to the next permutation in the order of lists; false after the last.
pub fn next_permutation(line: &mut [u8]) -> bool {
    let fall = match (1..line.len()).rev().find(|&k| line[k - 1] < line[k]) {
        Some(fall) => fall,
        None => return false,
    };
    let larger = (fall..line.len())
        .rev()
        .find(|&k| line[k] > line[fall - 1])
        .expect("the place of the fall itself is larger");
    line.swap(fall - 1, larger);
    line[fall..].reverse();
    true
}

/// The first permutation of the members, in the order of lists, that fits.
pub fn smallest_line(members: &[u8], fits: impl Fn(&[u8]) -> bool) -> Option<Vec<u8>> {
    let mut line = members.to_vec();
    line.sort_unstable();
    loop {
        if fits(&line) {
            return Some(line);
        }
        if !next_permutation(&mut line) {
            return None;
        }
    }
}

#[cfg(test)]
mod tests {
    use super::*;

    /// Lists that rise from each to the next are all different, so that as
    /// many of them as there are permutations are all of them.
    #[test]
    fn every_line_comes_once_and_in_order() {
        let mut factorial = 1;
        for count in 0..=6 {
            factorial *= count.max(1);
            let mut line: Vec<u8> = (0..count as u8).map(|k| 10 * k + 3).collect();
            let mut members = line.clone();
            let mut met = 1;
            let mut before = line.clone();
            while next_permutation(&mut line) {
                assert!(before < line);
                before = line.clone();
                met += 1;
            }
            assert_eq!(met, factorial);
            members.reverse();
            assert_eq!(line, members, "the falling line is the last");
        }
    }

    #[test]
    fn the_first_line_that_fits_is_taken() {
        let ends_in = |last: u8| move |line: &[u8]| line.last() == Some(&last);
        assert_eq!(smallest_line(&[9, 2, 5], ends_in(2)), Some(vec![5, 9, 2]));
        assert_eq!(smallest_line(&[9, 2, 5], ends_in(9)), Some(vec![2, 5, 9]));
        assert_eq!(smallest_line(&[9, 2, 5], ends_in(3)), None);
        assert_eq!(smallest_line(&[], |line| line.is_empty()), Some(vec![]));
    }
}
