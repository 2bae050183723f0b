//! An ordinary program that draws what the render host draws from solids, to be measured beside it.
//! It draws each frame anew, layer by layer, and keeps one frame of pixels.
//!
//! Words: `WIDTH HEIGHT VALUE SCALE FRAMES`, and for each layer, the topmost first,
//! `WIDTH,HEIGHT,ALPHA,RED,GREEN,BLUE,X,X_END,Y,Y_END,OPACITY,OPACITY_END`: a premultiplied colour, and three values
//! that go evenly from the first frame to the one after the last. The AFR file goes to standard output.

use std::env;
use std::io::{self, Write};
use std::process::ExitCode;

/// Alpha, red, green, blue.
type Pixel = [u8; 4];

struct Layer {
    width: i64,
    height: i64,
    colour: Pixel,
    x: Change,
    y: Change,
    opacity: Change,
}

/// A value that changes evenly.
struct Change {
    from: i64,
    to: i64,
}

impl Change {
    /// The value where so many of all frames are over, rounded down.
    fn at(&self, frame: u32, frames: u32) -> i64 {
        self.from + ((self.to - self.from) * i64::from(frame)).div_euclid(i64::from(frames))
    }
}

struct Project {
    width: u32,
    height: u32,
    value: u32,
    scale: u32,
    frames: u32,
    layers: Vec<Layer>,
}

fn number(text: &str) -> Result<u32, String> {
    text.parse().map_err(|_| format!("no number: {text}"))
}

fn read_layer(word: &str) -> Result<Layer, String> {
    let numbers = word
        .split(',')
        .map(|text| text.parse().map_err(|_| format!("no number: {text}")))
        .collect::<Result<Vec<i64>, _>>()?;
    let [width, height, a, r, g, b, x, x_end, y, y_end, opacity, opacity_end] = numbers[..] else {
        return Err(format!("no layer: {word}"));
    };
    if a > 255 || [r, g, b].iter().any(|&channel| channel > a) {
        return Err(format!("no premultiplied colour: {word}"));
    }
    Ok(Layer {
        width,
        height,
        colour: [a, r, g, b].map(|channel| channel as u8),
        x: Change { from: x, to: x_end },
        y: Change { from: y, to: y_end },
        opacity: Change { from: opacity, to: opacity_end },
    })
}

fn read_project(words: &[String]) -> Result<Project, String> {
    let [width, height, value, scale, frames, layers @ ..] = words else {
        return Err("too few words".to_string());
    };
    Ok(Project {
        width: number(width)?,
        height: number(height)?,
        value: number(value)?,
        scale: number(scale)?,
        frames: number(frames)?,
        layers: layers.iter().map(|word| read_layer(word)).collect::<Result<_, _>>()?,
    })
}

/// One channel of a source over what is below it, in Normal mode.
fn blend_channel(source: u8, source_alpha: u8, below: u8, below_alpha: u8) -> u8 {
    let (s, sa) = (u32::from(source), u32::from(source_alpha));
    let (d, da) = (u32::from(below), u32::from(below_alpha));
    ((s * (255 - da) + d * (255 - sa) + s * da + 127) / 255) as u8
}

fn blend(source: Pixel, below: Pixel) -> Pixel {
    let mut blended = [0; 4];
    for channel in 0..4 {
        blended[channel] = blend_channel(source[channel], source[0], below[channel], below[0]);
    }
    blended
}

fn scale(colour: Pixel, opacity: i64) -> Pixel {
    colour.map(|channel| ((u32::from(channel) * opacity as u32 + 5000) / 10000) as u8)
}

/// The part of `0..length` that a run of `count` from `start` on covers.
fn covered(start: i64, count: i64, length: usize) -> (usize, usize) {
    let end = (start + count).clamp(0, length as i64) as usize;
    ((start.clamp(0, length as i64) as usize).min(end), end)
}

fn draw_frame(frame: &mut [Pixel], project: &Project, number: u32) {
    let (width, height) = (project.width as usize, project.height as usize);
    frame.fill([0; 4]);
    for layer in project.layers.iter().rev() {
        let (left, right) = covered(layer.x.at(number, project.frames), layer.width, width);
        let (top, bottom) = covered(layer.y.at(number, project.frames), layer.height, height);
        let colour = scale(layer.colour, layer.opacity.at(number, project.frames));
        for row in frame.chunks_exact_mut(width).take(bottom).skip(top) {
            for pixel in &mut row[left..right] {
                *pixel = blend(colour, *pixel);
            }
        }
    }
}

fn write_header(out: &mut impl Write, project: &Project) -> io::Result<()> {
    out.write_all(b"AFR1")?;
    out.write_all(&project.width.to_be_bytes())?;
    out.write_all(&project.height.to_be_bytes())?;
    out.write_all(&[8])?;
    out.write_all(&project.value.to_be_bytes())?;
    out.write_all(&project.scale.to_be_bytes())?;
    out.write_all(&0u32.to_be_bytes())?;
    out.write_all(&project.frames.to_be_bytes())
}

fn write_project(out: &mut impl Write, project: &Project) -> io::Result<()> {
    write_header(out, project)?;
    let (width, height) = (project.width as usize, project.height as usize);
    let mut frame = vec![[0; 4]; width * height];
    for number in 0..project.frames {
        draw_frame(&mut frame, project, number);
        out.write_all(frame.as_flattened())?;
    }
    out.flush()
}

fn main() -> ExitCode {
    let words: Vec<String> = env::args().skip(1).collect();
    let written = read_project(&words)
        .and_then(|project| write_project(&mut io::stdout().lock(), &project).map_err(|error| error.to_string()));
    match written {
        Ok(()) => ExitCode::SUCCESS,
        Err(error) => {
            eprintln!("plain: {error}");
            ExitCode::FAILURE
        }
    }
}
