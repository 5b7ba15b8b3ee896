//! The four scales, as values that are cheap to compare and join.

/// A scale that scores are counted in. `Ord` is its order.
pub trait Scale: Copy + Ord {
    const CODE: u16;
    const NEUTRAL: Self;
    /// Below every value.
    const LOWEST: Self;
    /// The value of a word; none where the word is no entry.
    fn read(word: u32) -> Option<Self>;
    /// The word of an entry.
    fn word(self) -> u32;
    fn join(self, other: Self) -> Self;
    /// As two numbers.
    fn show(self) -> (i32, i32);
}

/// A scale that can say how far one value is above another.
pub trait Measuring: Scale {
    /// For a value that is at least as high as the other.
    fn gap(self, other: Self) -> Self;
}

#[derive(Clone, Copy, PartialEq, Eq, PartialOrd, Ord)]
pub struct Points(i32);

impl Scale for Points {
    const CODE: u16 = 1;
    const NEUTRAL: Points = Points(0);
    const LOWEST: Points = Points(i32::MIN);

    #[inline]
    fn read(word: u32) -> Option<Points> {
        let value = word as i32;
        (-1_000_000..=1_000_000).contains(&value).then_some(Points(value))
    }

    #[inline]
    fn word(self) -> u32 {
        self.0 as u32
    }

    #[inline]
    fn join(self, other: Points) -> Points {
        Points(self.0 + other.0)
    }

    fn show(self) -> (i32, i32) {
        (self.0, 0)
    }
}

impl Measuring for Points {
    #[inline]
    fn gap(self, other: Points) -> Points {
        Points(self.0 - other.0)
    }
}

#[derive(Clone, Copy, PartialEq, Eq, PartialOrd, Ord)]
pub struct Capped(i32);

impl Scale for Capped {
    const CODE: u16 = 2;
    const NEUTRAL: Capped = Capped(0);
    const LOWEST: Capped = Capped(i32::MIN);

    #[inline]
    fn read(word: u32) -> Option<Capped> {
        (word <= 1000).then_some(Capped(word as i32))
    }

    #[inline]
    fn word(self) -> u32 {
        self.0 as u32
    }

    #[inline]
    fn join(self, other: Capped) -> Capped {
        Capped((self.0 + other.0).min(1000))
    }

    fn show(self) -> (i32, i32) {
        (self.0, 0)
    }
}

impl Measuring for Capped {
    #[inline]
    fn gap(self, other: Capped) -> Capped {
        Capped(self.0 - other.0)
    }
}

/// First · 2^32 + second: sums, differences and the order of these are those of the pairs, since a second number stays far below 2^31.
#[derive(Clone, Copy, PartialEq, Eq, PartialOrd, Ord)]
pub struct Ranked(i64);

impl Scale for Ranked {
    const CODE: u16 = 3;
    const NEUTRAL: Ranked = Ranked(0);
    const LOWEST: Ranked = Ranked(i64::MIN);

    #[inline]
    fn read(word: u32) -> Option<Ranked> {
        let first = word as i16;
        let second = (word >> 16) as i16;
        let part = -1000..=1000;
        (part.contains(&first) && part.contains(&second)).then(|| Ranked(((first as i64) << 32) + second as i64))
    }

    #[inline]
    fn word(self) -> u32 {
        let (first, second) = self.show();
        (first as u32 & 0xffff) | (second as u32) << 16
    }

    #[inline]
    fn join(self, other: Ranked) -> Ranked {
        Ranked(self.0 + other.0)
    }

    #[inline]
    fn show(self) -> (i32, i32) {
        let second = self.0 as i32;
        (((self.0 - second as i64) >> 32) as i32, second)
    }
}

impl Measuring for Ranked {
    #[inline]
    fn gap(self, other: Ranked) -> Ranked {
        Ranked(self.0 - other.0)
    }
}

#[derive(Clone, Copy, PartialEq, Eq, PartialOrd, Ord)]
pub struct Weakest(i32);

impl Scale for Weakest {
    const CODE: u16 = 4;
    const NEUTRAL: Weakest = Weakest(1000);
    const LOWEST: Weakest = Weakest(i32::MIN);

    #[inline]
    fn read(word: u32) -> Option<Weakest> {
        (word <= 1000).then_some(Weakest(word as i32))
    }

    #[inline]
    fn word(self) -> u32 {
        self.0 as u32
    }

    #[inline]
    fn join(self, other: Weakest) -> Weakest {
        self.min(other)
    }

    fn show(self) -> (i32, i32) {
        (self.0, 0)
    }
}
