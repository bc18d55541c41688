//! Memory for outputs.

use std::alloc::{self, Layout};
use std::mem::MaybeUninit;

use crate::error::Error;
use crate::field::Word;

/// So many zeros. Nothing where memory is refused.
pub fn zeros<W: Word>(len: usize) -> Option<Vec<W>> {
    let layout = Layout::array::<W>(len).ok()?;
    if layout.size() == 0 {
        return Some(Vec::new());
    }
    // SAFETY: the layout has a size.
    let start = unsafe { alloc::alloc_zeroed(layout) };
    // SAFETY: the block comes from the global allocator with the layout of `len` words, and zeros are words.
    (!start.is_null()).then(|| unsafe { Vec::from_raw_parts(start.cast(), len, len) })
}

/// What a word is written to: a word, or room for one.
pub trait Place<W>: Copy + Send {
    /// Writes all words.
    fn fill(to: &mut [Self], from: &[W]);
}

impl<W: Word> Place<W> for W {
    fn fill(to: &mut [W], from: &[W]) {
        to.copy_from_slice(from);
    }
}

impl<W: Word> Place<W> for MaybeUninit<W> {
    fn fill(to: &mut [Self], from: &[W]) {
        assert_eq!(to.len(), from.len());
        to.iter_mut().zip(from).for_each(|(to, word)| _ = to.write(*word));
    }
}

/// So many words, which `fill` writes. No zeros are written first: one thread would do that while the others wait.
///
/// # Safety
///
/// Where `fill` succeeds, it has written each word.
pub unsafe fn filled<W: Word>(
    len: usize,
    fill: impl FnOnce(&mut [MaybeUninit<W>]) -> Result<(), Error>,
) -> Result<Vec<W>, Error> {
    let mut words = Vec::new();
    words.try_reserve_exact(len).map_err(|_| Error::Memory)?;
    fill(&mut words.spare_capacity_mut()[..len])?;
    // SAFETY: there is room for so many, and each was written.
    unsafe { words.set_len(len) };
    Ok(words)
}

#[cfg(test)]
mod tests {
    use super::{Place, filled, zeros};
    use crate::error::Error;

    const NO_LENGTHS: [usize; 4] = [usize::MAX, usize::MAX / 8 + 1, isize::MAX as usize, isize::MAX as usize / 8 + 1];

    #[test]
    fn zeros_are_so_many_or_none() {
        assert_eq!(zeros::<u32>(0), Some(vec![]));
        assert_eq!(zeros::<u64>(3), Some(vec![0; 3]));
        for len in NO_LENGTHS {
            assert_eq!(zeros::<u64>(len), None, "{len}");
        }
    }

    #[test]
    fn room_is_filled_or_an_error() {
        let words = |words: &[u64]| {
            let copy = |to: &mut [_]| -> Result<(), Error> {
                Place::fill(to, words);
                Ok(())
            };
            // SAFETY: `fill` writes each word.
            unsafe { filled(words.len(), copy) }
        };
        assert_eq!(words(&[]), Ok(vec![]));
        assert_eq!(words(&[3, 1, 2]), Ok(vec![3, 1, 2]));
        // SAFETY: there is no success.
        assert_eq!(unsafe { filled::<u32>(5, |_| Err(Error::Number)) }, Err(Error::Number));
        for len in NO_LENGTHS {
            // SAFETY: memory is refused before.
            assert_eq!(unsafe { filled::<u64>(len, |_| Ok(())) }, Err(Error::Memory), "{len}");
        }
    }
}
