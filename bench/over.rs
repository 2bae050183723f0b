//! What `solids.rs`, `footage.rs` and `shared.rs` share: pixels of 8 bits a channel in Normal mode. A pixel is one number of 32 bits,
//! whose bytes are alpha, red, green and blue from the lowest on, and two channels of it are multiplied at a time.

/// Two channels of a pixel times the same number up to 255, each divided by 255, a half up.
fn share(pair: u32, part: u32) -> u32 {
    let product = pair * part + 0x0080_0080;
    ((product + ((product >> 8) & 0x00ff_00ff)) >> 8) & 0x00ff_00ff
}

/// A pixel over another.
pub fn over(source: u32, below: u32) -> u32 {
    let part = 255 - (source & 255);
    source + (share(below & 0x00ff_00ff, part) | (share((below >> 8) & 0x00ff_00ff, part) << 8))
}

/// The bytes of pixels over those of others.
#[allow(dead_code)]
pub fn lay_row(source: &[u8], below: &mut [u8]) {
    for (s, d) in source.chunks_exact(4).zip(below.chunks_exact_mut(4)) {
        let source = u32::from_le_bytes(s.try_into().unwrap());
        let pixel = over(source, u32::from_le_bytes((&*d).try_into().unwrap()));
        d.copy_from_slice(&pixel.to_le_bytes());
    }
}

/// One pixel over the bytes of others.
#[allow(dead_code)]
pub fn lay_colour(source: u32, below: &mut [u8]) {
    for d in below.chunks_exact_mut(4) {
        let pixel = over(source, u32::from_le_bytes((&*d).try_into().unwrap()));
        d.copy_from_slice(&pixel.to_le_bytes());
    }
}
