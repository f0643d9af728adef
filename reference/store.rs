//! Stores of a settings image (docs/STORES.md).

/// The bytes of an image. A buffer or an image of another length cannot be handed in, so
/// refusal 6 does not come about here.
pub const IMAGE_SIZE: usize = 140;
pub type Image = [u8; IMAGE_SIZE];

/// The bytes of a slot: a mark and an image.
const SLOT_SIZE: usize = 1 + IMAGE_SIZE;
/// The mark of a slot that is used.
const USED: u8 = 0x00;
/// The mark that a save sets behind the slot that it uses.
const FREE: u8 = 0xFF;

/// A save with no writes left: refusal 7.
#[derive(Debug, Clone, Copy, PartialEq, Eq)]
pub struct NoWritesLeft;

#[derive(Debug, Clone, PartialEq, Eq)]
pub enum Store {
    Cell(Cell),
    Page(Page),
}

impl Store {
    /// The image held.
    pub fn load(&self) -> Option<&Image> {
        match self {
            Store::Cell(cell) => cell.image.as_ref(),
            Store::Page(page) => page.last_used(),
        }
    }

    /// Holds this image from now on, for one of the writes left.
    pub fn save(&mut self, image: &Image) -> Result<(), NoWritesLeft> {
        match self {
            Store::Cell(cell) => cell.save(image),
            Store::Page(page) => page.save(image),
        }
    }

    pub fn writes_left(&self) -> usize {
        match self {
            Store::Cell(cell) => cell.writes_left,
            Store::Page(page) => page.slots().saturating_sub(page.used),
        }
    }
}

/// One rewritable image.
#[derive(Debug, Clone, PartialEq, Eq)]
pub struct Cell {
    image: Option<Image>,
    writes_left: usize,
}

impl Cell {
    pub fn new(rating: usize) -> Cell {
        Cell {
            image: None,
            writes_left: rating,
        }
    }

    fn save(&mut self, image: &Image) -> Result<(), NoWritesLeft> {
        self.writes_left = self.writes_left.checked_sub(1).ok_or(NoWritesLeft)?;
        self.image = Some(*image);
        Ok(())
    }
}

/// Memory of any length and content, cut into slots.
#[derive(Debug, Clone, PartialEq, Eq)]
pub struct Page {
    memory: Vec<u8>,
    /// The length of the longest run of used slots from the front.
    used: usize,
}

impl Page {
    pub fn over(memory: Vec<u8>) -> Page {
        let used = memory
            .chunks_exact(SLOT_SIZE)
            .take_while(|slot| slot.first() == Some(&USED))
            .count();
        Page { memory, used }
    }

    pub fn memory(&self) -> &[u8] {
        &self.memory
    }

    /// Gives the memory back.
    pub fn into_memory(self) -> Vec<u8> {
        self.memory
    }

    /// The slots that there are, used or not.
    fn slots(&self) -> usize {
        self.memory.len() / SLOT_SIZE
    }

    fn last_used(&self) -> Option<&Image> {
        let slot = self.used.checked_sub(1)?;
        let (_, image) = self
            .memory
            .chunks_exact(SLOT_SIZE)
            .nth(slot)?
            .split_first()?;
        image.try_into().ok()
    }

    fn save(&mut self, image: &Image) -> Result<(), NoWritesLeft> {
        let mut free = self.memory.chunks_exact_mut(SLOT_SIZE).skip(self.used);
        let (mark, place) = free
            .next()
            .and_then(<[u8]>::split_first_mut)
            .ok_or(NoWritesLeft)?;
        if let Some(mark_behind) = free.next().and_then(<[u8]>::first_mut) {
            *mark_behind = FREE;
        }
        place.copy_from_slice(image);
        *mark = USED;
        self.used += 1;
        Ok(())
    }
}

#[cfg(test)]
mod tests {
    use super::*;

    fn page(memory: Vec<u8>) -> Store {
        Store::Page(Page::over(memory))
    }

    fn memory(store: Store) -> Vec<u8> {
        match store {
            Store::Page(page) => page.into_memory(),
            Store::Cell(_) => Vec::new(),
        }
    }

    #[test]
    fn cells() {
        let mut store = Store::Cell(Cell::new(2));
        assert_eq!((store.load(), store.writes_left()), (None, 2));
        for (value, left) in [(1, 1), (2, 0)] {
            assert_eq!(store.save(&[value; IMAGE_SIZE]), Ok(()));
            assert_eq!(store.load(), Some(&[value; IMAGE_SIZE]));
            assert_eq!(store.writes_left(), left);
        }
        let before = store.clone();
        assert_eq!(store.save(&[3; IMAGE_SIZE]), Err(NoWritesLeft));
        assert_eq!(store, before);
        assert_eq!(
            Store::Cell(Cell::new(0)).save(&[0; IMAGE_SIZE]),
            Err(NoWritesLeft)
        );
    }

    #[test]
    fn pages_of_any_length() {
        for (length, slots) in [(0, 0), (140, 0), (141, 1), (281, 1), (282, 2), (600, 4)] {
            assert_eq!(page(vec![0xFF; length]).writes_left(), slots);
            assert_eq!(page(vec![0xFF; length]).load(), None);
            let mut full = page(vec![0; length]);
            assert_eq!(full.writes_left(), 0);
            assert_eq!(full.load().is_some(), slots > 0);
            assert_eq!(full.save(&[1; IMAGE_SIZE]), Err(NoWritesLeft));
            assert_eq!(memory(full), vec![0; length]);
        }
    }

    #[test]
    fn a_save_changes_the_next_slot_and_one_mark() {
        // Slots 0 and 2 are marked, and two bytes are left over.
        let mut bytes = vec![0x55; 3 * SLOT_SIZE + 2];
        bytes[0] = 0;
        bytes[2 * SLOT_SIZE] = 0;
        let mut store = page(bytes.clone());
        assert_eq!(store.load(), Some(&[0x55; IMAGE_SIZE]));
        assert_eq!(store.writes_left(), 2);
        assert_eq!(store.save(&[9; IMAGE_SIZE]), Ok(()));
        bytes[SLOT_SIZE] = 0;
        bytes[SLOT_SIZE + 1..2 * SLOT_SIZE].fill(9);
        bytes[2 * SLOT_SIZE] = 0xFF;
        assert_eq!(store.load(), Some(&[9; IMAGE_SIZE]));
        assert_eq!(store.writes_left(), 1);
        assert_eq!(memory(store.clone()), bytes);
        assert_eq!(page(bytes.clone()), store);
        assert_eq!(store.save(&[8; IMAGE_SIZE]), Ok(()));
        bytes[2 * SLOT_SIZE] = 0;
        bytes[2 * SLOT_SIZE + 1..3 * SLOT_SIZE].fill(8);
        assert_eq!(store.writes_left(), 0);
        assert_eq!(memory(store), bytes);
    }
}
