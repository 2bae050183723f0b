//! What `solids.rs`, `footage.rs`, `spatial.rs` and `shared.rs` share: the format of the AFR file that they write, as they take it in words
//! and as its header holds it, and how they end.

use std::env;
use std::process::ExitCode;
use std::str::FromStr;

/// How many bytes of a file come before its pictures.
pub const HEADER: usize = 29;

/// The size of a picture in pixels, how long it is shown, which is `value / scale` seconds, and how many pictures there are.
pub struct Format {
    pub width: u32,
    pub height: u32,
    pub value: u32,
    pub scale: u32,
    pub frames: u32,
}

impl Format {
    /// The format of the words `WIDTH HEIGHT VALUE SCALE FRAMES`, and the words after them.
    pub fn read(words: &[String]) -> Result<(Format, &[String]), String> {
        let ([width, height, value, scale, frames], rest) = first(words)?;
        let format = Format {
            width: number(width)?,
            height: number(height)?,
            value: number(value)?,
            scale: number(scale)?,
            frames: number(frames)?,
        };
        Ok((format, rest))
    }

    /// How many pixels a picture has.
    pub fn pixels(&self) -> usize {
        self.width as usize * self.height as usize
    }

    /// The header of a file of so many bits a channel, whose first frame is number 0.
    pub fn header(&self, depth: u8) -> Vec<u8> {
        let mut bytes = Vec::with_capacity(HEADER);
        bytes.extend(b"AFR1");
        bytes.extend(self.width.to_be_bytes());
        bytes.extend(self.height.to_be_bytes());
        bytes.push(depth);
        for number in [self.value, self.scale, 0, self.frames] {
            bytes.extend(number.to_be_bytes());
        }
        bytes
    }
}

/// The first words, as many as the caller names, and those after them.
pub fn first<const COUNT: usize>(words: &[String]) -> Result<(&[String; COUNT], &[String]), String> {
    words.split_first_chunk().ok_or_else(|| "too few words".to_string())
}

/// The number that a word is.
pub fn number<T: FromStr>(text: &str) -> Result<T, String> {
    text.parse().map_err(|_| format!("no number: {text}"))
}

/// Does what a program's words say. What goes wrong is a line on standard error, after the program's name, with status 1.
pub fn run(name: &str, draw: impl FnOnce(&[String]) -> Result<(), String>) -> ExitCode {
    let words: Vec<String> = env::args().skip(1).collect();
    match draw(&words) {
        Ok(()) => ExitCode::SUCCESS,
        Err(error) => {
            eprintln!("{name}: {error}");
            ExitCode::FAILURE
        }
    }
}
