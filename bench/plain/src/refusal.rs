//! What a refusal says: a number, the layer that refuses, and a place.

use std::error::Error;
use std::fmt;

/// The part of the system that refuses.
#[derive(Clone, Copy, Debug, PartialEq, Eq)]
pub enum Layer {
    Reader,
    Check,
    Engine,
    Maker,
}

impl Layer {
    /// The word for the layer in printed lines.
    pub fn word(self) -> &'static str {
        match self {
            Layer::Reader => "reader",
            Layer::Check => "check",
            Layer::Engine => "engine",
            Layer::Maker => "maker",
        }
    }
}

/// Why something was refused, and where.
#[derive(Clone, Copy, Debug, PartialEq, Eq)]
pub struct Refusal {
    pub number: u8,
    pub layer: Layer,
    pub place: u32,
}

impl Refusal {
    /// The one refusal of the makers of scales and cards.
    pub const MAKER: Refusal = Refusal { number: 20, layer: Layer::Maker, place: 0 };

    pub fn reader(number: u8, place: usize) -> Refusal {
        Refusal { number, layer: Layer::Reader, place: place as u32 }
    }

    pub fn check(number: u8, place: usize) -> Refusal {
        Refusal { number, layer: Layer::Check, place: place as u32 }
    }

    pub fn engine(number: u8, place: u32) -> Refusal {
        Refusal { number, layer: Layer::Engine, place }
    }
}

impl fmt::Display for Refusal {
    fn fmt(&self, f: &mut fmt::Formatter<'_>) -> fmt::Result {
        write!(f, "refused {} {} {}", self.number, self.layer.word(), self.place)
    }
}

impl Error for Refusal {}
