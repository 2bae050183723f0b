//! An ordinary program that draws what the render host draws from clips and nested compositions, to be measured beside it.
//!
//! Words: `WIDTH HEIGHT VALUE SCALE FRAMES` and `clips TOP BOTTOM`, the files of two clips of just these pictures, the one over
//! the other; or `nested` and for each nested composition, the topmost first, `A,R,G,B,A,R,G,B`: one colour over another. All is
//! of 8 bits a channel, in Normal mode. The AFR file goes to standard output.

mod afr;
mod over;

use afr::{first, number, Format, HEADER};
use over::{lay_colour, lay_row};
use std::fs;
use std::io::{self, Write};
use std::process::ExitCode;

/// The bytes of a clip whose pixels are all premultiplied.
fn read_clip(path: &str, length: usize) -> Result<Vec<u8>, String> {
    let bytes = fs::read(path).map_err(|error| format!("{path}: {error}"))?;
    if bytes.len() != length {
        return Err(format!("{path}: {} bytes", bytes.len()));
    }
    let is_premultiplied = bytes[HEADER..].chunks_exact(4).all(|p| p[1] <= p[0] && p[2] <= p[0] && p[3] <= p[0]);
    if is_premultiplied { Ok(bytes) } else { Err(format!("{path}: a pixel is not premultiplied")) }
}

fn clips(format: &Format, top: &str, bottom: &str) -> Result<(), String> {
    let size = 4 * format.pixels();
    let frames = format.frames as usize;
    let length = HEADER + frames * size;
    let (top, bottom) = (read_clip(top, length)?, read_clip(bottom, length)?);
    let mut out = io::stdout().lock();
    out.write_all(&format.header(8)).map_err(|error| error.to_string())?;
    let mut frame = vec![0; size];
    for number in 0..frames {
        let at = HEADER + number * size;
        frame.copy_from_slice(&bottom[at..at + size]);
        lay_row(&top[at..at + size], &mut frame);
        out.write_all(&frame).map_err(|error| error.to_string())?;
    }
    out.flush().map_err(|error| error.to_string())
}

fn colours(word: &str) -> Result<[u32; 2], String> {
    let numbers = word.split(',').map(number).collect::<Result<Vec<u32>, _>>()?;
    let [a, r, g, b, aa, rr, gg, bb] = numbers[..] else {
        return Err(format!("no two colours: {word}"));
    };
    let packed = |a: u32, r: u32, g: u32, b: u32| a | r << 8 | g << 16 | b << 24;
    Ok([packed(a, r, g, b), packed(aa, rr, gg, bb)])
}

fn nested(format: &Format, words: &[String]) -> Result<(), String> {
    let comps = words.iter().map(|word| colours(word)).collect::<Result<Vec<_>, _>>()?;
    let size = 4 * format.pixels();
    let mut out = io::stdout().lock();
    out.write_all(&format.header(8)).map_err(|error| error.to_string())?;
    let (mut frame, mut comp) = (vec![0; size], vec![0; size]);
    for _ in 0..format.frames {
        frame.fill(0);
        for [top, bottom] in comps.iter().rev() {
            comp.fill(0);
            lay_colour(*bottom, &mut comp);
            lay_colour(*top, &mut comp);
            lay_row(&comp, &mut frame);
        }
        out.write_all(&frame).map_err(|error| error.to_string())?;
    }
    out.flush().map_err(|error| error.to_string())
}

fn draw(words: &[String]) -> Result<(), String> {
    let (format, words) = Format::read(words)?;
    let ([kind], rest) = first(words)?;
    match (kind.as_str(), rest) {
        ("clips", [top, bottom]) => clips(&format, top, bottom),
        ("nested", words) => nested(&format, words),
        _ => Err(format!("no such words: {kind}")),
    }
}

fn main() -> ExitCode {
    afr::run("footage", draw)
}
