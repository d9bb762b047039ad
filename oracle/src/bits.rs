//! The two calls of the crate bit_field that bitmap.rs makes, for a byte.

pub trait BitField {
    fn get_bit(&self, bit: usize) -> bool;
    fn set_bit(&mut self, bit: usize, value: bool) -> &mut Self;
}

impl BitField for u8 {
    fn get_bit(&self, bit: usize) -> bool {
        assert!(bit < 8);
        *self & (1 << bit) != 0
    }

    fn set_bit(&mut self, bit: usize, value: bool) -> &mut Self {
        assert!(bit < 8);
        if value {
            *self |= 1 << bit;
        } else {
            *self &= !(1 << bit);
        }
        self
    }
}
