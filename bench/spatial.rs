//! An ordinary program that draws what the render host draws from a clip behind a spatial effect, to be measured beside it.
//!
//! Words: `WIDTH HEIGHT VALUE SCALE FRAMES DEPTH CLIP EFFECT NUMBER..`: the file of a clip of just these pictures, and the name and
//! the parameters of an effect, or `Nothing`. The map of Displace is the clip itself. The AFR file goes to standard output.
//!
//! Means go by running sums: what a window has costs the same for every radius. Only what the frame shows is drawn.

mod afr;

use afr::{first, number, Format, HEADER};
use std::fs;
use std::io::{self, Write};
use std::process::ExitCode;

const WHOLE: u32 = 10000;

/// What a channel is kept as.
trait Channel: Copy + Into<u32> {
    const MAX: u32;
    const BYTES: usize;

    fn of(value: u32) -> Self;
    fn read(bytes: &[u8]) -> Self;
    fn write(self, bytes: &mut [u8]);
}

impl Channel for u8 {
    const MAX: u32 = 255;
    const BYTES: usize = 1;

    fn of(value: u32) -> u8 {
        value as u8
    }

    fn read(bytes: &[u8]) -> u8 {
        bytes[0]
    }

    fn write(self, bytes: &mut [u8]) {
        bytes[0] = self;
    }
}

impl Channel for u16 {
    const MAX: u32 = 32768;
    const BYTES: usize = 2;

    fn of(value: u32) -> u16 {
        value as u16
    }

    fn read(bytes: &[u8]) -> u16 {
        u16::from_be_bytes([bytes[0], bytes[1]])
    }

    fn write(self, bytes: &mut [u8]) {
        bytes.copy_from_slice(&self.to_be_bytes());
    }
}

/// Alpha, red, green, blue: premultiplied.
type Pixel<C> = [C; 4];

struct Picture<'a, C> {
    width: usize,
    height: usize,
    pixels: &'a [Pixel<C>],
}

impl<C: Channel> Picture<'_, C> {
    fn row(&self, y: usize) -> &[Pixel<C>] {
        &self.pixels[y * self.width..(y + 1) * self.width]
    }

    /// The pixel at a point, transparent outside.
    fn at(&self, x: i64, y: i64) -> [u32; 4] {
        let is_inside = (0..self.width as i64).contains(&x) && (0..self.height as i64).contains(&y);
        if is_inside { self.pixels[y as usize * self.width + x as usize].map(Into::into) } else { [0; 4] }
    }
}

/// Quotients by one number, by multiplication: exact up to the greatest sum of a window.
struct Mean {
    half: u64,
    factor: u64,
}

impl Mean {
    fn of(count: u64) -> Mean {
        Mean { half: count / 2, factor: (1 << 48) / count + 1 }
    }

    fn of_sum(&self, sum: u32) -> u32 {
        ((u64::from(sum) + self.half) * self.factor >> 48) as u32
    }
}

fn add(sums: &mut [u32; 4], pixel: [u32; 4]) {
    for (sum, c) in sums.iter_mut().zip(pixel) {
        *sum += c;
    }
}

fn take(sums: &mut [u32; 4], pixel: [u32; 4]) {
    for (sum, c) in sums.iter_mut().zip(pixel) {
        *sum -= c;
    }
}

fn change<C: Channel>(columns: &mut [[u32; 4]], row: &[Pixel<C>], by: impl Fn(&mut [u32; 4], [u32; 4])) {
    for (column, pixel) in columns.iter_mut().zip(row) {
        by(column, pixel.map(Into::into));
    }
}

fn blur_row<C: Channel>(columns: &[[u32; 4]], radius: usize, mean: &Mean, into: &mut [Pixel<C>]) {
    let mut sums = [0; 4];
    for column in &columns[..radius.min(columns.len())] {
        add(&mut sums, *column);
    }
    for (x, pixel) in into.iter_mut().enumerate() {
        if let Some(column) = columns.get(x + radius) {
            add(&mut sums, *column);
        }
        *pixel = sums.map(|sum| C::of(mean.of_sum(sum)));
        if x >= radius {
            take(&mut sums, columns[x - radius]);
        }
    }
}

fn blur<C: Channel>(from: &Picture<C>, radius: usize, into: &mut [Pixel<C>]) {
    let side = 2 * radius as u64 + 1;
    let mean = Mean::of(side * side);
    let mut columns = vec![[0; 4]; from.width];
    for y in 0..radius.min(from.height) {
        change(&mut columns, from.row(y), add);
    }
    for (y, row) in into.chunks_exact_mut(from.width).enumerate() {
        if y + radius < from.height {
            change(&mut columns, from.row(y + radius), add);
        }
        blur_row(&columns, radius, &mean, row);
        if y >= radius {
            change(&mut columns, from.row(y - radius), take);
        }
    }
}

fn mosaic<C: Channel>(from: &Picture<C>, size: usize, into: &mut [Pixel<C>]) {
    for (block, rows) in into.chunks_mut(size * from.width).enumerate() {
        let count = rows.len() / from.width;
        let mut sums = vec![[0; 4]; from.width.div_ceil(size)];
        for y in block * size..block * size + count {
            for (sum, part) in sums.iter_mut().zip(from.row(y).chunks(size)) {
                part.iter().for_each(|pixel| add(sum, pixel.map(Into::into)));
            }
        }
        let width_of = |number: usize| size.min(from.width - number * size);
        let means = sums.iter().enumerate().map(|(number, sum)| {
            let points = (count * width_of(number)) as u32;
            sum.map(|sum| C::of((sum + points / 2) / points))
        });
        let means: Vec<Pixel<C>> = means.collect();
        for row in rows.chunks_exact_mut(from.width) {
            row.chunks_mut(size).zip(&means).for_each(|(part, mean)| part.fill(*mean));
        }
    }
}

fn offset<C: Channel>(from: &Picture<C>, [dx, dy]: [i64; 2], into: &mut [Pixel<C>]) {
    let right = dx.rem_euclid(from.width as i64) as usize;
    for (y, row) in into.chunks_exact_mut(from.width).enumerate() {
        let source = from.row((y as i64 - dy).rem_euclid(from.height as i64) as usize);
        row[right..].copy_from_slice(&source[..from.width - right]);
        row[..right].copy_from_slice(&source[from.width - right..]);
    }
}

fn share(c: u32, part: u32, whole: u32) -> u32 {
    (c * part + whole / 2) / whole
}

/// Each point of the target from a rule.
fn each<C: Channel>(width: usize, into: &mut [Pixel<C>], rule: impl Fn(i64, i64) -> [u32; 4]) {
    for (y, row) in into.chunks_exact_mut(width).enumerate() {
        for (x, pixel) in row.iter_mut().enumerate() {
            *pixel = rule(x as i64, y as i64).map(C::of);
        }
    }
}

fn shadow<C: Channel>(from: &Picture<C>, [dx, dy]: [i64; 2], opacity: u32, colour: [u32; 3], into: &mut [Pixel<C>]) {
    each(from.width, into, |x, y| {
        let (mut pixel, a) = (from.at(x, y), share(from.at(x - dx, y - dy)[0], opacity, WHOLE));
        let below = C::MAX - pixel[0];
        let shadow = [a, share(a, colour[0], WHOLE), share(a, colour[1], WHOLE), share(a, colour[2], WHOLE)];
        for (c, s) in pixel.iter_mut().zip(shadow) {
            *c += share(s, below, C::MAX);
        }
        pixel
    });
}

fn displace<C: Channel>(from: &Picture<C>, [across, down]: [i64; 2], into: &mut [Pixel<C>]) {
    each(from.width, into, |x, y| {
        let [a, r, g, _] = from.at(x, y).map(i64::from);
        let far = |most: i64, c: i64| (most * (2 * c - a)).div_euclid(i64::from(C::MAX));
        from.at(x + far(across, r), y + far(down, g))
    });
}

fn apply<C: Channel>(effect: &str, numbers: &[i64], from: &Picture<C>, into: &mut [Pixel<C>]) -> Result<(), String> {
    match (effect, numbers) {
        ("Nothing", []) => into.copy_from_slice(from.pixels),
        ("Offset", [dx, dy]) => offset(from, [*dx, *dy], into),
        ("BoxBlur", [radius]) => blur(from, *radius as usize, into),
        ("Mosaic", [size]) => mosaic(from, *size as usize, into),
        ("DropShadow", [dx, dy, opacity, r, g, b]) => {
            shadow(from, [*dx, *dy], *opacity as u32, [*r, *g, *b].map(|c| c as u32), into)
        }
        ("Displace", [across, down]) => displace(from, [*across, *down], into),
        _ => return Err(format!("no such effect: {effect}")),
    }
    Ok(())
}

fn unpack<C: Channel>(bytes: &[u8], pixels: &mut [Pixel<C>]) -> Result<(), String> {
    for (pixel, bytes) in pixels.iter_mut().zip(bytes.chunks_exact(4 * C::BYTES)) {
        *pixel = [0, 1, 2, 3].map(|i| C::read(&bytes[i * C::BYTES..(i + 1) * C::BYTES]));
        let [a, r, g, b] = pixel.map(Into::into);
        if a > C::MAX || r > a || g > a || b > a {
            return Err("a pixel is not premultiplied".to_string());
        }
    }
    Ok(())
}

fn pack<C: Channel>(pixels: &[Pixel<C>], bytes: &mut [u8]) {
    for (pixel, bytes) in pixels.iter().zip(bytes.chunks_exact_mut(4 * C::BYTES)) {
        for (c, bytes) in pixel.iter().zip(bytes.chunks_exact_mut(C::BYTES)) {
            c.write(bytes);
        }
    }
}

fn draw<C: Channel>(format: &Format, clip: &str, effect: &str, numbers: &[i64]) -> Result<(), String> {
    let (width, height, count) = (format.width as usize, format.height as usize, format.pixels());
    let clip = fs::read(clip).map_err(|error| format!("{clip}: {error}"))?;
    if clip.len() != HEADER + format.frames as usize * count * 4 * C::BYTES {
        return Err(format!("a clip of {} bytes", clip.len()));
    }
    let mut out = io::stdout().lock();
    out.write_all(&format.header(8 * C::BYTES as u8)).map_err(|error| error.to_string())?;
    let (mut from, mut into) = (vec![[C::of(0); 4]; count], vec![[C::of(0); 4]; count]);
    let mut bytes = vec![0; count * 4 * C::BYTES];
    for picture in clip[HEADER..].chunks_exact(bytes.len()) {
        unpack(picture, &mut from)?;
        apply(effect, numbers, &Picture { width, height, pixels: &from }, &mut into)?;
        pack(&into, &mut bytes);
        out.write_all(&bytes).map_err(|error| error.to_string())?;
    }
    out.flush().map_err(|error| error.to_string())
}

fn run(words: &[String]) -> Result<(), String> {
    let (format, words) = Format::read(words)?;
    let ([depth, clip, effect], numbers) = first(words)?;
    let numbers = numbers.iter().map(|word| number(word)).collect::<Result<Vec<i64>, _>>()?;
    match depth.as_str() {
        "8" => draw::<u8>(&format, clip, effect, &numbers),
        "16" => draw::<u16>(&format, clip, effect, &numbers),
        _ => Err(format!("no depth: {depth}")),
    }
}

fn main() -> ExitCode {
    afr::run("spatial", run)
}
