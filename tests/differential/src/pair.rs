//! The pair job: two images, one after the other.

use crate::image::{length_asked, load};
use crate::model::{Kind, Model};
use crate::refusal::{Refusal, FIRST_IMAGE, SECOND_IMAGE};

/// The two models of the input of a pair job.
pub fn models(input: &[u8]) -> Result<(Model, Model), Refusal> {
    let (first, second) = input.split_at(length_asked(input).min(input.len()));
    // Of a kind byte that names no kind any kind makes a breach.
    let kind = first
        .first()
        .and_then(|&byte| Kind::from_byte(byte))
        .unwrap_or(Kind::Words);
    Ok((
        load(first, kind, FIRST_IMAGE)?,
        load(second, kind, SECOND_IMAGE)?,
    ))
}

#[cfg(test)]
mod tests {
    use super::*;

    const SMALLEST: [u8; 20] = [1, 0, 1, 0, 1, 0, 0, 0, 0, 0, 0, 0, 1, 0, 0, 0, 0, 0, 0, 0];

    fn told(input: &[u8]) -> String {
        models(input).unwrap_err().to_string()
    }

    #[test]
    fn the_examples_of_the_pair_job() {
        assert_eq!(told(&[]), "refused 1 1 0");
        assert_eq!(told(&[1]), "refused 1 1 1");
        assert_eq!(told(&SMALLEST), "refused 1 2 0");
        assert_eq!(told(&SMALLEST[..19]), "refused 3 1 20");
        let twice = [SMALLEST, SMALLEST].concat();
        assert!(models(&twice).is_ok());
        assert_eq!(told(&twice[..39]), "refused 3 2 20");
        assert_eq!(told(&[twice, vec![0]].concat()), "refused 3 2 20");
        let mut other = SMALLEST;
        other[0] = 7;
        assert_eq!(told(&other), "refused 2 1 0");
        other[0] = 2;
        other[9..12].copy_from_slice(&[0, 1, 2]);
        assert_eq!(told(&[SMALLEST, other].concat()), "refused 2 2 0");
    }
}
