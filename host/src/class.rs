//! The class of one page, which hangs on its 528 bytes alone.
use crate::raw;

/// What a page is. The library classes it; no `Store` is needed.
///
/// A plug that is pulled in a program leaves the page torn, by much if it was pulled early and by little if late:
///
/// ```
/// use bokuhira::{Class, Geometry, Refusal, Store, DATA, PAGE};
///
/// fn main() -> Result<(), Refusal> {
///     let mut store = Store::formatted(Geometry::new(8, 8, 16))?;
///     store.begin(7).more()?;
///     store.write(7, 3, &[0x33; DATA]).more()?;
///     assert_eq!(store.class(16), Some(Class::Erased));
///     store.commit(7).more()?;
///     assert_eq!(store.class(16), Some(Class::Whole));
///     // the same commit, cut when only the data were turned: no bit of the spare area is
///     let whole = store.array[16 * PAGE..][..PAGE].to_vec();
///     let early = [&whole[..DATA], &[0xFF; 16]].concat();
///     assert_eq!(Class::of(&early), Some(Class::Torn(65_535 - 2_048)));
///     // and cut when all but one bit of the data was turned
///     let mut late = whole.clone();
///     late[0] |= 0x80;
///     assert_eq!(Class::of(&late), Some(Class::Torn(1)));
///     // a page that the layer never wrote: more zero bits than Zeros says
///     let mut foreign = whole.clone();
///     foreign[0] = 0;
///     assert_eq!(Class::of(&foreign), Some(Class::Torn(-4)));
///     Ok(())
/// }
/// ```
#[derive(Clone, Copy, PartialEq, Eq, Debug)]
pub enum Class {
    /// All 528 bytes are 0xFF.
    Erased,
    /// Zeros, the number in the last two bytes, agrees with the zero bits counted in the 526 bytes before it.
    Whole,
    /// Neither. The number is Zeros minus the zero bits counted: -4,208 to 65,534, never 0. On an array that nothing but the layer wrote
    /// since its format was done it is at least 1.
    Torn(i32),
}

impl Class {
    /// The class of these bytes; none where they are not `PAGE`.
    pub fn of(page: &[u8]) -> Option<Class> {
        match raw::class(page) {
            (0, _) => Some(Class::Erased),
            (1, _) => Some(Class::Whole),
            (2, by) => Some(Class::Torn(by)),
            _ => None,
        }
    }

    /// The trade's word for it.
    pub fn word(self) -> &'static str {
        match self {
            Class::Erased => "erased",
            Class::Whole => "whole",
            Class::Torn(_) => "torn",
        }
    }
}

#[cfg(test)]
mod tests {
    use super::*;
    use crate::{Geometry, Store, PAGE};

    /// A page of ones but for so many zero bits from its first byte on, and Zeros.
    fn page(zeros: usize, said: u16) -> Vec<u8> {
        let mut page = vec![0xFF; PAGE];
        (0..zeros).for_each(|i| page[i / 8] &= !(1 << (i % 8)));
        page[526..].copy_from_slice(&said.to_le_bytes());
        page
    }

    #[test]
    fn the_number_is_zeros_minus_the_zero_bits_counted() {
        let most = 8 * 526;
        assert_eq!(Class::of(&page(0, 0xFFFF)), Some(Class::Erased));
        for zeros in [0, 1, 7, 8, 100, 2048, 4095, 4096, most - 1, most] {
            for said in [0, 1, 99, 100, 101, 2048, 4095, 4207, 4208, 4209, 0x7FFF, 0x8000, 0xFFFE, 0xFFFF] {
                let due = match said as i32 - zeros as i32 {
                    65_535 => Class::Erased,
                    0 => Class::Whole,
                    by => Class::Torn(by),
                };
                assert_eq!(Class::of(&page(zeros, said)), Some(due), "{zeros} zero bits, Zeros {said}");
            }
        }
        assert_eq!(Class::of(&page(most, 0)), Some(Class::Torn(-4_208)));
        assert_eq!(Class::of(&page(1, 0xFFFF)), Some(Class::Torn(65_534)));
    }

    /// Each bit of the 526 bytes counts one, bit i of Zeros counts 2 to the power of i.
    #[test]
    fn every_bit_counts() {
        let whole = page(1_000, 1_000);
        for bit in 0..8 * PAGE {
            let mut torn = whole.clone();
            torn[bit / 8] ^= 1 << (bit % 8);
            let up = torn[bit / 8] > whole[bit / 8];
            let by = if bit < 8 * 526 { 1 } else { 1 << (bit - 8 * 526) };
            assert_eq!(Class::of(&torn), Some(Class::Torn(if up { by } else { -by })), "bit {bit}");
        }
    }

    #[test]
    fn another_length_is_no_page() {
        for n in [0, 1, 512, PAGE - 1, PAGE + 1, 2 * PAGE] {
            assert_eq!(Class::of(&vec![0xFF; n]), None, "{n} bytes");
        }
    }

    #[test]
    fn a_store_has_as_many_classes_as_pages() {
        let mut store = Store::formatted(Geometry::new(8, 8, 16)).unwrap();
        store.array[20 * PAGE] = 0xFE;
        let classes: Vec<Class> = (0..64).map(|k| store.class(k).unwrap()).collect();
        assert_eq!(classes.iter().filter(|c| **c != Class::Erased).count(), 3);
        assert_eq!((classes[0], classes[1], classes[20]), (Class::Whole, Class::Whole, Class::Torn(65_534)));
        assert_eq!([64, 65, usize::MAX / PAGE + 1, usize::MAX].map(|k| store.class(k)), [None; 4]);
        store.array.pop();
        assert_eq!((store.class(62), store.class(63)), (Some(Class::Erased), None));
    }

    #[test]
    fn words_are_the_headers() {
        let header = include_str!("../../include/bokuhira.h");
        for (number, class) in [Class::Erased, Class::Whole, Class::Torn(1)].into_iter().enumerate() {
            let line = format!("#define BOKUHIRA_{} {number}", class.word().to_uppercase());
            assert!(header.lines().any(|l| l == line), "{line}");
        }
    }
}
