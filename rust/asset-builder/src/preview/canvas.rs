//! Pictures of a page: pixels of textures, parts of them, and lines of text set in a font.

use crate::picture::write_pixels;
use crate::room::zeros;
use base64::write::EncoderWriter;
use std::io::{self, Write};
use xnb::{Font, Level, Rectangle};

/// A line that is set has at most so many pixels to each side.
const LONGEST_SIDE: i64 = 2_048;

type Pixel = [u8; 4];

/// Pixels with red, green, blue and alpha.
pub struct Canvas {
    pub width: u32,
    pub height: u32,
    pixels: Vec<u8>,
}

impl Canvas {
    fn new(width: u32, height: u32) -> io::Result<Canvas> {
        Ok(Canvas {
            width,
            height,
            pixels: zeros(4 * width as usize * height as usize)?,
        })
    }

    /// The pixels of a level.
    pub fn of_level(level: &Level) -> io::Result<Canvas> {
        Ok(Canvas {
            width: level.width,
            height: level.height,
            pixels: level.rgba8()?,
        })
    }

    /// A part of it, as far as it lies in it; nothing if it does not.
    pub fn part(&self, part: Rectangle) -> io::Result<Option<Canvas>> {
        let (width, height) = (i64::from(self.width), i64::from(self.height));
        let inside = |from: i32, size: i32, most: i64| {
            let end = (i64::from(from) + i64::from(size)).min(most);
            let start = i64::from(from).max(0);
            (start < end).then_some((start as u32, end as u32))
        };
        let across = inside(part.x, part.width, width);
        let down = inside(part.y, part.height, height);
        let Some(((left, right), (top, bottom))) = across.zip(down) else {
            return Ok(None);
        };
        let mut cut = Canvas::new(right - left, bottom - top)?;
        for y in top..bottom {
            for x in left..right {
                cut.set(x - left, y - top, self.pixel(x, y));
            }
        }
        Ok(Some(cut))
    }

    fn place(&self, x: u32, y: u32) -> usize {
        4 * (y as usize * self.width as usize + x as usize)
    }

    fn pixel(&self, x: u32, y: u32) -> Pixel {
        let at = self.place(x, y);
        std::array::from_fn(|channel| self.pixels[at + channel])
    }

    fn set(&mut self, x: u32, y: u32, pixel: Pixel) {
        let at = self.place(x, y);
        self.pixels[at..at + 4].copy_from_slice(&pixel);
    }

    /// Lays another picture over it, where it is not all clear.
    fn lay(&mut self, other: &Canvas, left: i64, top: i64) {
        for y in 0..other.height {
            for x in 0..other.width {
                let pixel = other.pixel(x, y);
                let (to_x, to_y) = (left + i64::from(x), top + i64::from(y));
                let inside = (0..i64::from(self.width)).contains(&to_x)
                    && (0..i64::from(self.height)).contains(&to_y);
                if inside && pixel[3] > 0 {
                    self.set(to_x as u32, to_y as u32, pixel);
                }
            }
        }
    }

    /// Writes it as the address of a picture, in pieces.
    pub fn write_address(&self, out: &mut dyn Write) -> io::Result<()> {
        write!(out, "data:image/png;base64,")?;
        let mut out = EncoderWriter::new(out, base64::STANDARD);
        write_pixels(self.width, self.height, &self.pixels, &mut out)?;
        out.finish().map(|_| ())
    }
}

/// A line of text as the library sets it in the font; nothing if no pixel of it is there.
pub fn line(font: &Font, texture: &Canvas, text: &str) -> io::Result<Option<Canvas>> {
    let mut parts = Vec::new();
    let (mut width, mut height) = (0_i64, 0_i64);
    for placed in font.set(text) {
        let (left, top) = (placed.x.round() as i64, placed.y.round() as i64);
        let Some(part) = texture.part(placed.glyph.bounds)? else {
            continue;
        };
        width = width.max(left.saturating_add(part.width.into()));
        height = height.max(top.saturating_add(part.height.into()));
        parts.push((part, left, top));
    }
    let side = |side: i64| (side > 0).then_some(side.min(LONGEST_SIDE) as u32);
    let Some((width, height)) = side(width).zip(side(height)) else {
        return Ok(None);
    };
    let mut line = Canvas::new(width, height)?;
    for (part, left, top) in parts {
        line.lay(&part, left, top);
    }
    Ok(Some(line))
}

#[cfg(test)]
mod tests {
    use super::*;

    fn numbered(width: u32, height: u32) -> Canvas {
        let pixels = (0..width * height).flat_map(|number| [number as u8, 0, 0, 255]);
        Canvas {
            width,
            height,
            pixels: pixels.collect(),
        }
    }

    fn rectangle([x, y, width, height]: [i32; 4]) -> Rectangle {
        Rectangle {
            x,
            y,
            width,
            height,
        }
    }

    #[test]
    fn a_part_is_cut_out_as_far_as_it_is_there() {
        let canvas = numbered(4, 3);
        let numbers = |part| {
            let part = canvas.part(rectangle(part)).expect("memory")?;
            let numbers: Vec<u8> = part.pixels.chunks(4).map(|it| it[0]).collect();
            Some((part.width, part.height, numbers))
        };
        assert_eq!(numbers([1, 1, 2, 2]), Some((2, 2, vec![5, 6, 9, 10])));
        assert_eq!(numbers([-1, 2, 3, 9]), Some((2, 1, vec![8, 9])));
        assert_eq!(numbers([3, 0, i32::MAX, 1]), Some((1, 1, vec![3])));
        for nothing in [
            [4, 0, 1, 1],
            [0, 0, 0, 1],
            [0, 0, 1, -1],
            [i32::MIN, 0, 5, 5],
        ] {
            assert_eq!(numbers(nothing), None, "{nothing:?}");
        }
    }

    #[test]
    fn a_clear_pixel_covers_nothing() {
        let mut canvas = numbered(2, 1);
        let mut over = Canvas::new(2, 1).expect("memory");
        over.set(0, 0, [9, 9, 9, 255]);
        canvas.lay(&over, 0, 0);
        assert_eq!(canvas.pixels, [9, 9, 9, 255, 1, 0, 0, 255]);
        canvas.lay(&over, 1, -1);
        assert_eq!(canvas.pixels, [9, 9, 9, 255, 1, 0, 0, 255]);
    }
}
