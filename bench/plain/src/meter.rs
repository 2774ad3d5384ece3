//! Meters: cost models that say how many ticks an instruction takes.

use crate::refusal::Refusal;

/// The questions that a meter answers about instruction codes.
///
/// A steady code has one charge for all operands. Codes outside 1 to 12 are steady and free.
pub trait Meter {
    /// The largest charge that the meter ever makes, at most 1,000.
    const LARGEST: u32;

    fn charge(&self, code: u8, first: i32, second: i32) -> u32;
    fn steady(&self, code: u8) -> bool;
}

/// A fixed charge for each of the codes 1 to 12.
#[derive(Clone, Copy, Debug, Default)]
pub struct Card {
    /// The charges by code; code 0 does not exist and stays free.
    charges: [u16; 13],
}

impl Card {
    /// The card that books are checked under where no other is chosen.
    pub const ONES: Card = Card { charges: [0, 1, 1, 1, 1, 1, 1, 1, 1, 1, 1, 1, 1] };

    /// A card that is filled by the charges of the codes 1 to 12.
    pub fn filled(charges: &[u32; 12]) -> Result<Card, Refusal> {
        let mut card = Card::default();
        for (own, &charge) in card.charges[1..].iter_mut().zip(charges) {
            if charge > Card::LARGEST {
                return Err(Refusal::MAKER);
            }
            *own = charge as u16;
        }
        Ok(card)
    }
}

impl Meter for Card {
    const LARGEST: u32 = 1_000;

    #[inline]
    fn charge(&self, code: u8, _first: i32, _second: i32) -> u32 {
        self.charges.get(usize::from(code)).map_or(0, |&charge| u32::from(charge))
    }

    #[inline]
    fn steady(&self, _code: u8) -> bool {
        true
    }
}

/// A multiplication takes longer the more one bits its second operand has, a division the longer its first one is.
#[derive(Clone, Copy, Debug)]
pub struct Digit;

impl Meter for Digit {
    const LARGEST: u32 = 33;

    #[inline]
    fn charge(&self, code: u8, first: i32, second: i32) -> u32 {
        match code {
            6 => 1 + second.count_ones(),
            7 => 1 + (i32::BITS - first.leading_zeros()),
            1..=12 => 1,
            _ => 0,
        }
    }

    #[inline]
    fn steady(&self, code: u8) -> bool {
        !matches!(code, 6 | 7)
    }
}
