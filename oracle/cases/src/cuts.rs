//! Every cut of every short text that arrives.
use crate::alphabet;
use crate::arrivals::Cut;

/// Every text of at most so many pieces of the alphabet of `q`, cut in every way, from case number `from` on: texts of few pieces first.
pub fn all(pieces: u32, from: u64) -> impl Iterator<Item = Cut> {
    let alphabet = alphabet::of_call(b'q');
    let mut before = from;
    (0..alphabet.texts(pieces)).flat_map(move |number| {
        let text = alphabet.spelt(number);
        let passed = before.min(ways(&text));
        before -= passed;
        every(text, passed)
    })
}

/// In how many ways a text is cut: between two bytes or not.
fn ways(text: &[u8]) -> u64 {
    1 << text.len().saturating_sub(1)
}

/// A text cut in every way, without empty pieces, but for the first so many: a number has a bit for each place between two bytes.
fn every(text: Vec<u8>, passed: u64) -> impl Iterator<Item = Cut> {
    let places = text.len().saturating_sub(1) as u32;
    (passed..ways(&text)).map(move |cuts| Cut { text: text.clone(), lengths: lengths(cuts, places) })
}

fn lengths(cuts: u64, places: u32) -> Vec<u32> {
    let mut from = 0;
    let ends = (1..=places).filter(|place| cuts >> (place - 1) & 1 == 1);
    ends.map(|end| end - std::mem::replace(&mut from, end)).collect()
}

#[cfg(test)]
mod tests {
    use super::*;

    #[test]
    fn four_bytes_are_cut_in_eight_ways() {
        let all: Vec<Vec<u32>> = every(vec![b' '; 4], 0).map(|cut| cut.lengths).collect();
        assert_eq!(all, [&[][..], &[1], &[2], &[1, 1], &[3], &[1, 2], &[2, 1], &[1, 1, 1]]);
    }

    #[test]
    fn cases_go_on_from_any_number() {
        let cases = |from| all(2, from).map(|cut| (cut.text, cut.lengths)).collect::<Vec<_>>();
        let all = cases(0);
        (0..=all.len()).step_by(97).for_each(|from| assert_eq!(cases(from as u64), all[from..]));
    }
}
