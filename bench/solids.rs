//! A program that draws what the render host draws from solids over the whole frame, as fast as plain Rust does it without
//! threads, to be measured beside the host.
//!
//! Words: `WIDTH HEIGHT VALUE SCALE FRAMES DEPTH`, and for each layer, the topmost first, `ALPHA,RED,GREEN,BLUE`: a
//! premultiplied colour in Normal mode. The AFR file goes to standard output.
//!
//! A pixel of 8 bits a channel is one number of 32 bits, of which two channels are multiplied at a time. One of 16 bits is
//! four numbers, whose bytes are exchanged as a frame is written.

mod afr;
mod over;

use afr::{first, number, Format};
use over::over;
use std::io::{self, Write};
use std::process::ExitCode;

/// Alpha, red, green, blue.
fn colour(word: &str) -> Result<[u16; 4], String> {
    let numbers = word.split(',').map(number).collect::<Result<Vec<u32>, _>>()?;
    match numbers[..] {
        [a, r, g, b] if a <= 32768 && r <= a && g <= a && b <= a => Ok([a, r, g, b].map(|channel| channel as u16)),
        _ => Err(format!("no premultiplied colour: {word}")),
    }
}

fn lay_8([a, r, g, b]: [u16; 4], frame: &mut [u32]) {
    let source = u32::from_le_bytes([a, r, g, b].map(|channel| channel as u8));
    for below in frame {
        *below = over(source, *below);
    }
}

fn lay_16(source: [u16; 4], frame: &mut [[u16; 4]]) {
    let part = 32768 - u32::from(source[0]);
    for below in frame {
        for (s, d) in source.iter().zip(below) {
            *d = s + ((u32::from(*d) * part + 16384) >> 15) as u16;
        }
    }
}

fn write_8(out: &mut impl Write, format: &Format, layers: &[[u16; 4]]) -> io::Result<()> {
    let mut frame = vec![0; format.pixels()];
    let mut bytes = vec![0; 4 * format.pixels()];
    for _ in 0..format.frames {
        frame.fill(0);
        for layer in layers.iter().rev() {
            lay_8(*layer, &mut frame);
        }
        for (pixel, into) in frame.iter().zip(bytes.chunks_exact_mut(4)) {
            into.copy_from_slice(&pixel.to_le_bytes());
        }
        out.write_all(&bytes)?;
    }
    out.flush()
}

fn write_16(out: &mut impl Write, format: &Format, layers: &[[u16; 4]]) -> io::Result<()> {
    let mut frame = vec![[0; 4]; format.pixels()];
    let mut bytes = vec![0; 8 * format.pixels()];
    for _ in 0..format.frames {
        frame.fill([0; 4]);
        for layer in layers.iter().rev() {
            lay_16(*layer, &mut frame);
        }
        for (channel, into) in frame.as_flattened().iter().zip(bytes.chunks_exact_mut(2)) {
            into.copy_from_slice(&channel.to_be_bytes());
        }
        out.write_all(&bytes)?;
    }
    out.flush()
}

fn draw(words: &[String]) -> Result<(), String> {
    let (format, words) = Format::read(words)?;
    let ([depth], layers) = first(words)?;
    let depth: u8 = number(depth)?;
    let layers = layers.iter().map(|word| colour(word)).collect::<Result<Vec<_>, _>>()?;
    let mut out = io::stdout().lock();
    let written = out.write_all(&format.header(depth)).and_then(|()| match depth {
        8 => write_8(&mut out, &format, &layers),
        _ => write_16(&mut out, &format, &layers),
    });
    written.map_err(|error| error.to_string())
}

fn main() -> ExitCode {
    afr::run("solids", draw)
}
