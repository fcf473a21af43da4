//! Levels of textures as PNG.

use std::io::{self, Write};
use xnb::Level;

/// The bytes of a PNG that are written at once.
const PIECE: usize = 1 << 16;

/// Writes a level as PNG in pieces, and answers how many bytes that took.
pub fn write_png(level: &Level, out: &mut dyn Write) -> io::Result<usize> {
    write_pixels(level.width, level.height, &level.rgba8()?, out)
}

/// The same of pixels with red, green, blue and alpha in a byte each.
pub fn write_pixels(
    width: u32,
    height: u32,
    pixels: &[u8],
    out: &mut dyn Write,
) -> io::Result<usize> {
    let mut out = Watched {
        out,
        written: 0,
        failure: None,
    };
    let encoded = encode(width, height, pixels, &mut out);
    match out.failure {
        Some(error) => Err(error),
        None => encoded.map(|()| out.written),
    }
}

fn encode(width: u32, height: u32, pixels: &[u8], out: &mut Watched) -> io::Result<()> {
    let mut encoder = png::Encoder::new(out, width, height);
    encoder.set_color(png::ColorType::Rgba);
    encoder.set_depth(png::BitDepth::Eight);
    let mut writer = encoder.write_header()?;
    let mut stream = writer.stream_writer_with_size(PIECE)?;
    stream.write_all(pixels)?;
    stream.finish()?;
    Ok(writer.finish()?)
}

/// An output that knows what became of it: the encoder drops some errors at the end of the pixels.
struct Watched<'o> {
    out: &'o mut dyn Write,
    written: usize,
    /// The first error.
    failure: Option<io::Error>,
}

impl Watched<'_> {
    /// Keeps the first error, and hands on its kind.
    fn watch(&mut self, done: io::Result<()>) -> io::Result<()> {
        done.map_err(|error| {
            let kind = error.kind();
            self.failure.get_or_insert(error);
            kind.into()
        })
    }
}

impl Write for Watched<'_> {
    fn write(&mut self, bytes: &[u8]) -> io::Result<usize> {
        let written = self.out.write_all(bytes);
        self.watch(written)?;
        self.written += bytes.len();
        Ok(bytes.len())
    }

    fn flush(&mut self) -> io::Result<()> {
        let flushed = self.out.flush();
        self.watch(flushed)
    }
}

#[cfg(test)]
mod tests {
    use super::*;
    use xnb::Table;

    /// An output that fails at one write and takes all others.
    struct FailsOnce {
        writes: usize,
        failing: usize,
    }

    impl Write for FailsOnce {
        fn write(&mut self, bytes: &[u8]) -> io::Result<usize> {
            self.writes += 1;
            match self.writes - 1 == self.failing {
                true => Err(io::Error::other("a full disk")),
                false => Ok(bytes.len()),
            }
        }

        fn flush(&mut self) -> io::Result<()> {
            Ok(())
        }
    }

    #[test]
    fn a_failure_at_any_write_is_reported() {
        let file = std::fs::read(corpus::folder::folder().join("ok-kind-32-texture.xnb"));
        let file = file.expect("a sample");
        let table = Table::load(&file).expect("a file that is taken");
        let picture = table.picture(0).expect("a texture");
        let level = picture.level(0).expect("a level");
        let written = |failing| {
            let mut out = FailsOnce { writes: 0, failing };
            let written = write_png(&level, &mut out).map_err(|error| error.to_string());
            (written, out.writes)
        };
        let (whole, writes) = written(usize::MAX);
        assert!(whole.is_ok() && writes > 10, "{whole:?}, {writes} writes");
        for failing in 0..writes {
            let reported = written(failing).0;
            assert_eq!(reported, Err("a full disk".to_string()), "at {failing}");
        }
    }
}
