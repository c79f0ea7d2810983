//! Letters for pictures, as a dot matrix display has them.

/// Dots across a letter and the space after it, and down a line of them.
pub const ADVANCE: usize = 6;
pub const HEIGHT: usize = 8;

/// From the space to the tilde: five columns from the left, each a byte with its lowest bit at the top.
const LETTERS: &str = "0000000000 00005F0000 0007000700 147F147F14 242A7F2A12 2313086462 3649552250 0005030000 001C224100 0041221C00 \
     14083E0814 08083E0808 0050300000 0808080808 0060600000 2010080402 3E5149453E 00427F4000 4261514946 2141454B31 \
     1814127F10 2745454539 3C4A494930 0171090503 3649494936 064949291E 0036360000 0056360000 0814224100 1414141414 \
     0041221408 0201510906 324979413E 7E1111117E 7F49494936 3E41414122 7F4141221C 7F49494941 7F09090901 3E4149497A \
     7F0808087F 00417F4100 2040413F01 7F08142241 7F40404040 7F020C027F 7F0408107F 3E4141413E 7F09090906 3E4151215E \
     7F09192946 4649494931 01017F0101 3F4040403F 1F2040201F 3F4038403F 6314081463 0708700807 6151494543 007F414100 \
     0204081020 0041417F00 0402010204 4040404040 0001020400 2054545478 7F48444438 3844444420 384444487F 3854545418 \
     087E090102 18A4A4A47C 7F08040478 00447D4000 4080847D00 7F10284400 00417F4000 7C04180478 7C08040478 3844444438 \
     FC24242418 18242424FC 7C08040408 4854545420 043F444020 3C4040207C 1C2040201C 3C4030403C 4428102844 1CA0A0A07C \
     4464544C44 0008364100 00007F0000 0041360800 0804081008";

/// The dots of a text in one line, by column and row. What is no ASCII is a question mark.
pub fn dots(text: &str) -> impl Iterator<Item = (usize, usize)> + '_ {
    text.chars().enumerate().flat_map(|(place, letter)| {
        let letter = if (' '..='~').contains(&letter) { letter } else { '?' };
        let start = 11 * (letter as usize - usize::from(b' '));
        let columns = u64::from_str_radix(&LETTERS[start..start + 10], 16).expect("a letter has five columns");
        let is_set = move |&(column, row): &(usize, usize)| columns >> (8 * (4 - column) + row) & 1 == 1;
        let all = (0..5).flat_map(|column| (0..HEIGHT).map(move |row| (column, row)));
        all.filter(is_set).map(move |(column, row)| (ADVANCE * place + column, row))
    })
}

#[cfg(test)]
mod tests {
    use super::{dots, LETTERS};

    #[test]
    fn every_letter_is_there() {
        assert_eq!(LETTERS.split(' ').map(str::len).collect::<Vec<_>>(), [10; 95]);
        assert_eq!(dots(" ").count(), 0);
        assert_eq!(dots("é").collect::<Vec<_>>(), dots("?").collect::<Vec<_>>());
        assert_eq!(dots("l-").max(), Some((10, 3)));
    }
}
