//! Where the blocks of each chip lie.

use std::ops::Range;

#[derive(Clone, Copy, Debug, PartialEq, Eq)]
pub struct Block {
    pub start: u32,
    pub size: u32,
}

impl Block {
    pub fn contains(self, address: u32) -> bool {
        address.wrapping_sub(self.start) < self.size
    }

    /// The block's cells as a range of indices.
    pub fn range(self) -> Range<usize> {
        let start = self.start as usize;
        start..start + self.size as usize
    }
}

pub const BLOCKS: usize = 11;

#[derive(Debug)]
pub struct Geometry {
    /// The device code that the chip gives in ID mode.
    pub code: u8,
    pub size: u32,
    pub blocks: [Block; BLOCKS],
}

pub static T004: Geometry = Geometry::laid_out(
    0x3B,
    [
        65536, 65536, 65536, 65536, 65536, 65536, 65536, 32768, 8192, 8192, 16384,
    ],
);

pub static B004: Geometry = Geometry::laid_out(
    0xBA,
    [
        16384, 8192, 8192, 32768, 65536, 65536, 65536, 65536, 65536, 65536, 65536,
    ],
);

pub static BENCH: Geometry = Geometry::laid_out(
    0xBA,
    [
        1024, 512, 512, 2048, 4096, 4096, 4096, 4096, 4096, 4096, 4096,
    ],
);

impl Geometry {
    const fn laid_out(code: u8, sizes: [u32; BLOCKS]) -> Geometry {
        let mut blocks = [Block { start: 0, size: 0 }; BLOCKS];
        let mut start = 0;
        let mut i = 0;
        while i < BLOCKS {
            blocks[i] = Block {
                start,
                size: sizes[i],
            };
            start += sizes[i];
            i += 1;
        }
        Geometry {
            code,
            size: start,
            blocks,
        }
    }

    /// The number of the block that holds an address inside the chip.
    pub fn block_at(&self, address: u32) -> usize {
        self.blocks.partition_point(|block| block.start <= address) - 1
    }
}
