// A process that is out of memory, for tests of calls that take none or little.
use std::alloc::{AllocError, Global};

// How many pieces are taken at most, which is enough for the address space.
const PIECES: usize = 60_000;

/// The memory that the process could get. While it is held, each growth is refused.
#[derive(Drop)]
pub struct Hoard {
    pieces: Vec<Vec<u8>>,
}

impl Hoard {
    /// `None` if memory is not used up, as under the checkers of `rt try`: 512 GiB are granted at once, or the pieces
    /// do not end. An error if the list of pieces finds no memory.
    pub fn new(alloc: Global) -> Result<Option<Hoard>, AllocError> {
        let pieces = Vec::with_capacity(alloc, PIECES)?;
        let mut hoard = Hoard { pieces };
        let mut size = 1usize << 39;
        hoard.take_all(alloc, size);
        if !hoard.pieces.is_empty() {
            return Ok(None);
        }
        for _ in 0..36u32 {
            size /= 2;
            hoard.take_all(alloc, size);
        }
        if hoard.pieces.len() == PIECES {
            return Ok(None);
        }
        Ok(Some(hoard))
    }

    /// Does the same, with room for so many bytes, and no more.
    pub fn with_room(alloc: Global, room: usize) -> Result<Option<Hoard>, AllocError> {
        let mut kept: Vec<Vec<u8>> = Vec::with_capacity(alloc, 1)?;
        kept.push(Vec::with_capacity(alloc, room)?)?;
        let hoard = Hoard::new(alloc)?;
        drop(kept);
        Ok(hoard)
    }

    // Takes pieces of this size until one is refused.
    fn take_all(&mut self, alloc: Global, size: usize) {
        for _ in self.pieces.len()..PIECES {
            match Vec::with_capacity(alloc, size) {
                Ok(piece) => {
                    if self.pieces.push(piece).is_err() {
                        return;
                    }
                }
                Err(AllocError) => return,
            }
        }
    }

    // Whether a growth by so many bytes is refused. A piece that is got is kept, so that the compiler leaves the growth
    // in.
    fn refuses(&mut self, alloc: Global, size: usize) -> bool {
        match Vec::with_capacity(alloc, size) {
            Ok(piece) => {
                drop(self.pieces.push(piece));
                false
            }
            Err(AllocError) => true,
        }
    }
}

/// Returns whether each growth is refused, if memory could be used up.
pub fn is_starved(alloc: Global, hoard: &mut Option<Hoard>) -> bool {
    refuses(alloc, hoard, 1)
}

/// Returns whether a growth by so many bytes is refused, if memory could be used up.
pub fn refuses(alloc: Global, hoard: &mut Option<Hoard>, size: usize) -> bool {
    match hoard {
        Some(hoard) => hoard.refuses(alloc, size),
        None => true,
    }
}
