//! An image to try the machine with.

/// The sectors that aren't zeros: each is its number, in 4 bytes, the lowest first, and 512 bytes.
const SECTORS: &[u8] = include_bytes!("example.sectors");
const SIZE: usize = 399 * 512;

/// An image to try: that of `examples/embed/counter.toml`. Process 1 holds page 16 in register 6.
pub fn example_image() -> Vec<u8> {
    let mut image = vec![0; SIZE];
    for sector in SECTORS.chunks_exact(516) {
        let (number, data) = sector.split_at(4);
        let place = u32::from_le_bytes([number[0], number[1], number[2], number[3]]) as usize * 512;
        image[place..place + 512].copy_from_slice(data);
    }
    image
}
