//! The cards that a bench can play.

/// A card: they differ in how many features they can offer, and in nothing else.
#[derive(Clone, Copy, Debug, Default, PartialEq, Eq, Hash)]
pub enum Card {
    /// 64 feature bits: offered and driver features have 8 bytes.
    #[default]
    Features64,
    /// 128 feature bits: they have 16 bytes.
    Features128,
}

impl Card {
    /// How many 64-bit words of features it has.
    pub const fn words(self) -> u8 {
        match self {
            Card::Features64 => 1,
            Card::Features128 => 2,
        }
    }

    /// The card with so many words of features, if there is one.
    pub const fn with_words(words: u8) -> Option<Card> {
        match words {
            1 => Some(Card::Features64),
            2 => Some(Card::Features128),
            _ => None,
        }
    }

    /// The most bytes that saving writes.
    pub const fn saved_max(self) -> usize {
        413 + 16 * self.words() as usize
    }
}
