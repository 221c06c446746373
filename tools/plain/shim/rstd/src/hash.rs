//! Hashes.

pub use std::hash::*;

/// A fast hash with one seed, in the place of the toolchain's of this name.
#[derive(Clone, Copy, Default)]
pub struct FoldHasher(u64);

impl FoldHasher {
    #[inline(always)]
    fn fold(&mut self, x: u64) {
        let wide = u128::from(self.0 ^ x ^ 0x243f_6a88_85a3_08d3) * 0xf39c_c060_5ced_c835;
        self.0 = (wide as u64) ^ ((wide >> 64) as u64);
    }
}

impl Hasher for FoldHasher {
    #[inline]
    fn write(&mut self, bytes: &[u8]) {
        let mut pieces = bytes.chunks_exact(8);
        for piece in &mut pieces {
            self.fold(u64::from_le_bytes(piece.try_into().unwrap()));
        }
        let rest = pieces.remainder();
        if !rest.is_empty() {
            let mut last = [0; 8];
            last[..rest.len()].copy_from_slice(rest);
            self.fold(u64::from_le_bytes(last) ^ ((rest.len() as u64) << 56));
        }
    }

    #[inline]
    fn write_u8(&mut self, x: u8) {
        self.fold(x.into());
    }

    #[inline]
    fn write_u32(&mut self, x: u32) {
        self.fold(x.into());
    }

    #[inline]
    fn write_u64(&mut self, x: u64) {
        self.fold(x);
    }

    #[inline]
    fn write_u128(&mut self, x: u128) {
        self.fold(x as u64);
        self.fold((x >> 64) as u64);
    }

    #[inline]
    fn write_usize(&mut self, x: usize) {
        self.fold(x as u64);
    }

    #[inline]
    fn finish(&self) -> u64 {
        self.0
    }
}
