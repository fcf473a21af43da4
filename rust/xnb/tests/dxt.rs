//! Dxt1, Dxt3 and Dxt5 as ImageMagick decodes the same blocks; apart from the other tests, since it runs that program.
//!
//!     apt-get install imagemagick
//!     cargo test --release --offline --package xnb --test dxt -- --ignored

use corpus::readers::TEXTURE2D;
use corpus::values::{file, image_bytes, number_field, object, texture_of, value};
use corpus::writer::{write, Part, Role};
use fuzz::random::Random;
use std::io::Write;
use std::process::{Command, Stdio};
use xnb::{SurfaceFormat, Table};

/// Debian's ImageMagick, whatever else is called so.
const CONVERT: &str = "/usr/bin/convert";

/// A texture of one level.
struct Picture {
    format: SurfaceFormat,
    width: u32,
    height: u32,
    data: Vec<u8>,
}

impl Picture {
    /// Blocks of any bytes, of which a third has equal or rising colours and alphas.
    fn some(format: SurfaceFormat, width: u32, height: u32, random: &mut Random) -> Picture {
        let size = image_bytes(format.code(), width, height, 0);
        let mut data = random.bytes(size as usize);
        for block in data.chunks_exact_mut(format.bytes()) {
            let colours = block.len() - 8;
            match random.below(6) {
                0 => block.copy_within(colours..colours + 2, colours + 2),
                1 => block[colours + 1] = 0,
                _ => {}
            }
            if format == SurfaceFormat::Dxt5 && random.chance(30) {
                block[0] = block[1].saturating_sub(random.byte() % 3);
            }
        }
        Picture {
            format,
            width,
            height,
            data,
        }
    }

    /// The pixels by the library, from a file with this texture.
    fn ours(&self) -> Vec<u8> {
        let size = number_field(Role::LevelSize, self.data.len() as u32);
        let level = value(35, vec![size, Part::Data(self.data.clone())]);
        let texture = texture_of(self.format.code(), self.width, self.height, vec![level]);
        let bytes = write(&file(&[TEXTURE2D], object(1, texture), vec![])).bytes;
        let table = Table::load(&bytes).expect("a lawful file");
        let picture = table.picture(0).expect("a texture");
        let level = picture.level(0).expect("a level");
        level.rgba8().expect("memory")
    }

    /// The same blocks behind a DDS header.
    fn dds(&self) -> Vec<u8> {
        let name: [u8; 4] = match self.format {
            SurfaceFormat::Dxt1 => *b"DXT1",
            SurfaceFormat::Dxt3 => *b"DXT3",
            _ => *b"DXT5",
        };
        // Size, flags (caps, height, width, pixel format, linear size), sides, size of the data.
        let mut words = vec![
            124,
            0x0008_1007,
            self.height,
            self.width,
            self.data.len() as u32,
        ];
        words.extend([0; 13]);
        // The pixel format: its size, that it has a name, and the name; then that it is a texture.
        words.extend([32, 4, u32::from_le_bytes(name), 0, 0, 0, 0, 0]);
        words.extend([0x1000, 0, 0, 0, 0]);
        let words = words.into_iter().flat_map(u32::to_le_bytes);
        let header = b"DDS ".iter().copied().chain(words);
        header.chain(self.data.iter().copied()).collect()
    }

    /// The pixels by ImageMagick.
    fn theirs(&self) -> Vec<u8> {
        let mut convert = Command::new(CONVERT)
            .args(["dds:-", "-depth", "8", "rgba:-"])
            .stdin(Stdio::piped())
            .stdout(Stdio::piped())
            .spawn()
            .expect("Debian's imagemagick is installed");
        let mut input = convert.stdin.take().expect("its input");
        let dds = self.dds();
        let writer = std::thread::spawn(move || input.write_all(&dds));
        let output = convert.wait_with_output().expect("its output");
        writer.join().expect("a thread").expect("all is read");
        assert!(output.status.success());
        output.stdout
    }
}

#[test]
#[ignore = "runs ImageMagick's convert"]
fn blocks_are_decoded_as_imagemagick_decodes_them() {
    let mut random = Random::new(38);
    let sides = [
        (256, 256),
        (1, 1),
        (2, 2),
        (5, 3),
        (7, 9),
        (4, 13),
        (1, 64),
        (130, 31),
    ];
    let mut compared = 0;
    for format in [
        SurfaceFormat::Dxt1,
        SurfaceFormat::Dxt3,
        SurfaceFormat::Dxt5,
    ] {
        for (width, height) in sides {
            let picture = Picture::some(format, width, height, &mut random);
            let (ours, theirs) = (picture.ours(), picture.theirs());
            assert_eq!(ours.len(), theirs.len());
            let pixels = ours.chunks(4).zip(theirs.chunks(4));
            for (number, (ours, theirs)) in pixels.enumerate() {
                assert_eq!(ours, theirs, "{format} {width} by {height}, pixel {number}");
                compared += 1;
            }
        }
    }
    println!("{compared} pixels are the same");
}
