//! An ordinary program that draws what the render host draws from a nested composition behind an effect of time or analysis, to be
//! measured beside it. It keeps nothing from frame to frame: what a frame looks at is drawn for it, rows at a time where no more
//! than a row is needed.
//!
//! Words: `WIDTH HEIGHT VALUE SCALE FRAMES EFFECT NUMBER..`, the name and the parameters of an effect or `Nothing`, then `--` and for
//! each solid of the nested composition, the topmost first, `WIDTH,HEIGHT,ALPHA,RED,GREEN,BLUE,X,Y,DX,DY`: a premultiplied colour,
//! where it lies in the first frame, and how far it moves in each. All is of 8 bits a channel. The AFR file goes to standard output.

mod afr;
mod over;

use afr::{number, Format};
use over::{lay_colour, lay_row};
use std::io::{self, Write};
use std::process::ExitCode;

const WHOLE: u32 = 10000;
const LEVELS: usize = 256;

/// A rectangle of one colour.
struct Solid {
    width: i64,
    height: i64,
    pixel: u32,
    place: [i64; 2],
    step: [i64; 2],
}

/// The nested composition. The topmost solid is the first.
struct Comp {
    width: usize,
    frames: i64,
    solids: Vec<Solid>,
}

impl Comp {
    /// A row of a frame. A frame that is not there is transparent.
    fn draw_row(&self, frame: i64, y: usize, row: &mut [u8]) {
        row.fill(0);
        if !(0..self.frames).contains(&frame) {
            return;
        }
        for solid in self.solids.iter().rev() {
            let [left, top] = [0, 1].map(|axis| solid.place[axis] + frame * solid.step[axis]);
            if !(top..top + solid.height).contains(&(y as i64)) {
                continue;
            }
            let end = |x: i64| 4 * x.clamp(0, self.width as i64) as usize;
            lay(solid.pixel, &mut row[end(left)..end(left + solid.width)]);
        }
    }

    fn draw(&self, frame: i64, picture: &mut [u8]) {
        for (y, row) in picture.chunks_exact_mut(4 * self.width).enumerate() {
            self.draw_row(frame, y, row);
        }
    }
}

fn lay(pixel: u32, row: &mut [u8]) {
    if pixel & 255 == 255 {
        row.chunks_exact_mut(4).for_each(|into| into.copy_from_slice(&pixel.to_le_bytes()));
    } else {
        lay_colour(pixel, row);
    }
}

/// Each channel times the strength, in 1/10000, a half up. `2^24` times a share of 10000, rounded up, is exact for all 256 values.
fn weaken(strength: u32, row: &mut [u8]) {
    let factor = (u64::from(strength) << 24).div_ceil(u64::from(WHOLE)) as u32;
    row.iter_mut().for_each(|c| *c = ((u32::from(*c) * factor + (1 << 23)) >> 24) as u8);
}

/// The frame over so many echoes, the latest of which are the topmost.
fn echo(comp: &Comp, frame: i64, [count, delay, strength]: [i64; 3], picture: &mut [u8]) {
    let mut row = vec![0; 4 * comp.width];
    for (y, into) in picture.chunks_exact_mut(4 * comp.width).enumerate() {
        into.fill(0);
        for k in (1..=count).rev().filter(|k| frame >= k * delay) {
            comp.draw_row(frame - k * delay, y, &mut row);
            weaken(strength as u32, &mut row);
            lay_row(&row, into);
        }
        comp.draw_row(frame, y, &mut row);
        lay_row(&row, into);
    }
}

/// The mean of all frames up to a distance, those that are not there too.
fn time_mean(comp: &Comp, frame: i64, radius: i64, picture: &mut [u8]) {
    let count = 2 * radius as u32 + 1;
    let factor = (1u32 << 16).div_ceil(count);
    let (mut row, mut sums) = (vec![0; 4 * comp.width], vec![0u16; 4 * comp.width]);
    for (y, into) in picture.chunks_exact_mut(4 * comp.width).enumerate() {
        sums.fill(0);
        for at in frame - radius..=frame + radius {
            comp.draw_row(at, y, &mut row);
            sums.iter_mut().zip(&row).for_each(|(sum, c)| *sum += u16::from(*c));
        }
        // The multiplication is exact up to the greatest sum of nine.
        for (c, sum) in into.iter_mut().zip(&sums) {
            *c = ((u32::from(*sum) + count / 2) * factor >> 16) as u8;
        }
    }
}

fn luma([_, r, g, b]: [u32; 4]) -> u32 {
    (77 * r + 150 * g + 29 * b + 128) >> 8
}

fn pixels(bytes: &[u8]) -> impl Iterator<Item = [u32; 4]> + '_ {
    bytes.chunks_exact(4).map(|p| [p[0], p[1], p[2], p[3]].map(u32::from))
}

/// How many pixels are at each level. Four counts go on in turn, since neighbours are often alike.
fn histogram(picture: &[u8]) -> [u64; LEVELS] {
    // An alpha's inverse, exact for all levels below it.
    let inverses: Vec<u64> = (0..LEVELS as u64).map(|a| if a == 0 { 0 } else { (1 << 24) / a + 1 }).collect();
    let mut counts = [[0u32; LEVELS]; 4];
    for four in picture.chunks(16) {
        for (pixel, counts) in pixels(four).zip(&mut counts) {
            let level = u64::from(luma(pixel) * 255) * inverses[pixel[0] as usize] >> 24;
            counts[level as usize & 255] += u32::from(pixel[0] != 0);
        }
    }
    std::array::from_fn(|level| counts.iter().map(|it| u64::from(it[level])).sum())
}

/// The colours between two levels spread over all of them. `clip` 10000ths of the pixels may become black, and as many white.
fn auto_levels(comp: &Comp, frame: i64, clip: i64, picture: &mut [u8]) {
    comp.draw(frame, picture);
    let counts = histogram(picture);
    let total: u64 = counts.iter().sum();
    let is_more = |count: u64| clip as u64 * total < u64::from(WHOLE) * count;
    let low = (0..LEVELS).find(|&level| is_more(counts[..=level].iter().sum())).unwrap_or(LEVELS) as i64;
    let high = (0..LEVELS).rev().find(|&level| is_more(counts[level..].iter().sum())).unwrap_or(0) as i64;
    if total == 0 || high <= low {
        return;
    }
    // What becomes of each colour under each alpha.
    let mut table = vec![[0u8; LEVELS]; LEVELS];
    for (a, row) in (0..).zip(&mut table) {
        for (c, into) in (0..=a).zip(row) {
            *into = ((255 * c - low * a).max(0) / (high - low)).min(a) as u8;
        }
    }
    for pixel in picture.chunks_exact_mut(4) {
        let row = &table[usize::from(pixel[0])];
        let [r, g, b] = [1, 2, 3].map(|i| row[usize::from(pixel[i])]);
        pixel.copy_from_slice(&[pixel[0], r, g, b]);
    }
}

/// The sums of luma and alpha.
fn light(row: &[u8]) -> [u64; 2] {
    let (luma, alpha) = pixels(row).fold((0, 0), |(sum, alpha), pixel| (sum + luma(pixel), alpha + pixel[0]));
    [luma, alpha].map(u64::from)
}

/// How bright alpha is in the frame becomes how bright it is in all frames up to a distance.
fn deflicker(comp: &Comp, frame: i64, radius: i64, picture: &mut [u8]) {
    let (mut all, mut middle) = ([0; 2], [0; 2]);
    let mut row = vec![0; 4 * comp.width];
    for (y, into) in picture.chunks_exact_mut(4 * comp.width).enumerate() {
        for at in (frame - radius..=frame + radius).filter(|&at| at != frame) {
            comp.draw_row(at, y, &mut row);
            all = add(all, light(&row));
        }
        comp.draw_row(frame, y, into);
        middle = add(middle, light(into));
    }
    let ([luma, alpha], [middle_luma, middle_alpha]) = (add(all, middle), middle);
    if middle_luma == 0 || alpha == 0 {
        return;
    }
    let factors = [luma, middle_alpha, alpha, middle_luma].map(u128::from);
    let relit = |c: u128| (c * factors[0] * factors[1] / (factors[2] * factors[3])).min(255) as u8;
    let table: Vec<u8> = (0..LEVELS as u128).map(relit).collect();
    for pixel in picture.chunks_exact_mut(4) {
        let a = pixel[0];
        pixel[1..].iter_mut().for_each(|c| *c = table[usize::from(*c)].min(a));
    }
}

fn add(a: [u64; 2], b: [u64; 2]) -> [u64; 2] {
    [a[0] + b[0], a[1] + b[1]]
}

fn draw_frame(comp: &Comp, effect: &str, numbers: &[i64], frame: i64, picture: &mut [u8]) -> Result<(), String> {
    match (effect, numbers) {
        ("Nothing", []) => comp.draw(frame, picture),
        ("Echo", [count, delay, strength]) => echo(comp, frame, [*count, *delay, *strength], picture),
        ("TimeMean", [radius]) => time_mean(comp, frame, *radius, picture),
        ("AutoLevels", [clip]) => auto_levels(comp, frame, *clip, picture),
        ("Deflicker", [radius]) => deflicker(comp, frame, *radius, picture),
        _ => return Err(format!("no such effect: {effect}")),
    }
    Ok(())
}

fn numbers(words: &[String]) -> Result<Vec<i64>, String> {
    words.iter().map(|word| number(word)).collect()
}

fn read_solid(word: &str) -> Result<Solid, String> {
    let numbers = word.split(',').map(number).collect::<Result<Vec<i64>, _>>()?;
    let [width, height, a, r, g, b, x, y, dx, dy] = numbers[..] else {
        return Err(format!("no solid: {word}"));
    };
    let pixel = u32::from_le_bytes([a, r, g, b].map(|c| c as u8));
    Ok(Solid { width, height, pixel, place: [x, y], step: [dx, dy] })
}

fn run(words: &[String]) -> Result<(), String> {
    let (format, words) = Format::read(words)?;
    let (effect, solids) = words.iter().position(|word| word == "--").map(|at| (&words[..at], &words[at + 1..])).ok_or("no --")?;
    let [name, params @ ..] = effect else {
        return Err("no effect".to_string());
    };
    let params = numbers(params)?;
    let solids = solids.iter().map(|word| read_solid(word)).collect::<Result<Vec<_>, _>>()?;
    let comp = Comp { width: format.width as usize, frames: i64::from(format.frames), solids };
    let mut out = io::stdout().lock();
    out.write_all(&format.header(8)).map_err(|error| error.to_string())?;
    let mut picture = vec![0; 4 * format.pixels()];
    for frame in 0..comp.frames {
        draw_frame(&comp, name, &params, frame, &mut picture)?;
        out.write_all(&picture).map_err(|error| error.to_string())?;
    }
    out.flush().map_err(|error| error.to_string())
}

fn main() -> ExitCode {
    afr::run("shared", run)
}
