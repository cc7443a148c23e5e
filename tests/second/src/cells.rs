//! Lent outputs with guard cells on both sides.
const GUARDS: usize = 4;
const GUARD: u8 = 0xA5;
const UNWRITTEN: u8 = 0x5A;

/// An output: guard cells, the cells that are lent, guard cells.
pub struct Output<T> {
    block: Vec<T>,
    guard: T,
}

impl<T: Copy + PartialEq + From<u8> + Into<u32>> Output<T> {
    pub fn new(size: usize) -> Self {
        let guard = T::from(GUARD);
        let mut block = vec![guard; size + 2 * GUARDS];
        block[GUARDS..GUARDS + size].fill(T::from(UNWRITTEN));
        Output { block, guard }
    }

    pub fn first(&mut self) -> *mut T {
        self.block[GUARDS..].as_mut_ptr()
    }

    pub fn size(&self) -> usize {
        self.block.len() - 2 * GUARDS
    }

    pub fn cells(&self) -> Vec<u32> {
        let (before, rest) = self.block.split_at(GUARDS);
        let (cells, after) = rest.split_at(self.size());
        assert!(before.iter().chain(after).all(|&g| g == self.guard), "a guard cell has changed");
        cells.iter().map(|&c| c.into()).collect()
    }
}

/// The six columns of a table.
pub struct Columns {
    pub numbers: Output<u16>,
    pub names: Output<u8>,
    pub parents: Output<u16>,
    pub starts: Output<u32>,
    pub lengths: Output<u16>,
    pub decoded: Output<u16>,
}

impl Columns {
    pub fn new(sizes: [usize; 6]) -> Self {
        Columns {
            numbers: Output::new(sizes[0]),
            names: Output::new(sizes[1]),
            parents: Output::new(sizes[2]),
            starts: Output::new(sizes[3]),
            lengths: Output::new(sizes[4]),
            decoded: Output::new(sizes[5]),
        }
    }

    pub fn cells(&self) -> [Vec<u32>; 6] {
        [self.numbers.cells(), self.names.cells(), self.parents.cells(), self.starts.cells(), self.lengths.cells(), self.decoded.cells()]
    }
}
