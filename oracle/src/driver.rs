//! The disk driver's place: block reads and writes go to the card in memory.

pub mod virtio_disk {
    use crate::arch::riscv::qemu::fs::BSIZE;
    use crate::card;
    use crate::fs::Buf;

    pub struct Disk;

    pub static DISK: Disk = Disk;

    impl Disk {
        /// Reads or writes one whole block, as the published driver does when its interrupt has come.
        pub fn rw(&self, buf: &mut Buf<'_>, writing: bool) {
            let block = buf.read_blockno();
            let bytes = unsafe { std::slice::from_raw_parts_mut(buf.raw_data_mut() as *mut u8, BSIZE) };
            let there = card::with(|card| if writing { card.write(block, bytes) } else { card.read(block, bytes) });
            if !there {
                // The published driver panics with "interrupt status" when the device refuses.
                panic!("disk: block {} is past the end of the card", block);
            }
        }
    }
}
