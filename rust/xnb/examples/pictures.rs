//! Writes each level of each texture of a file as a picture, in the plain form PAM that most picture programs read.
//!
//!     cargo run --release --offline --package xnb --example pictures -- FILE FOLDER

use std::error::Error;
use std::path::PathBuf;
use xnb::{Columns, Kind};

fn main() -> Result<(), Box<dyn Error>> {
    let mut arguments = std::env::args().skip(1);
    let file = std::fs::read(arguments.next().ok_or("name a file")?)?;
    let folder = PathBuf::from(arguments.next().ok_or("name a folder")?);
    let table = Columns::load(&file)?;
    for row in table.of_kind(Kind::Texture2D) {
        let picture = table.picture(row)?;
        for (number, level) in picture.levels().enumerate() {
            let (width, height) = (level.width, level.height);
            let sides = format!("WIDTH {width}\nHEIGHT {height}");
            let header = format!("P7\n{sides}\nDEPTH 4\nMAXVAL 255\nTUPLTYPE RGB_ALPHA\nENDHDR\n");
            let bytes = [header.into_bytes(), level.rgba8()?].concat();
            let name = format!("row{row}-level{number}.pam");
            std::fs::write(folder.join(&name), bytes)?;
            println!("{name}: {width} by {height}, {}", level.format);
        }
        if let Some(made) = picture.texture().format.made() {
            println!("row {row}: {made}");
        }
    }
    Ok(())
}
