//! `itoa` under its names.

/// As many digits as `u128` has, and a sign.
const LONGEST: usize = 40;

pub struct Buffer {
    bytes: [u8; LONGEST],
}

pub trait Integer: Copy {
    /// Whether it is below 0, and the number without its sign.
    fn parts(self) -> (bool, u128);
}

macro_rules! integers {
    ($($t:ty),*) => { $(impl Integer for $t {
        #[inline]
        #[allow(unused_comparisons)]
        fn parts(self) -> (bool, u128) {
            let is_negative = self < 0;
            let wide = self as u128;
            (is_negative, if is_negative { wide.wrapping_neg() } else { wide })
        }
    })* };
}

integers!(u8, u16, u32, u64, u128, usize, i8, i16, i32, i64, i128, isize);

impl Buffer {
    #[inline]
    pub fn new() -> Buffer {
        Buffer { bytes: [0; LONGEST] }
    }

    pub fn format<I: Integer>(&mut self, n: I) -> &str {
        let (is_negative, mut rest) = n.parts();
        let mut at = LONGEST;
        loop {
            at -= 1;
            self.bytes[at] = b'0' + (rest % 10) as u8;
            rest /= 10;
            if rest == 0 {
                break;
            }
        }
        if is_negative {
            at -= 1;
            self.bytes[at] = b'-';
        }
        std::str::from_utf8(&self.bytes[at..]).unwrap()
    }
}
