//! Fonts: glyphs by character, and lines of text set in them.

use crate::fields::Fields;
use crate::kind::Kind;
use crate::numbers::numbers;
use crate::refusal::Refused;
use crate::shape::Shaped;
use crate::table::Grid;
use crate::value::{character, Rectangle};

/// A font, as XNA's `SpriteFont`.
///
/// Its glyphs are parts of one picture; the file's table has that by [`picture`](Grid::picture)`(font.texture)`.
#[derive(Clone, Debug, PartialEq)]
#[cfg_attr(feature = "serde", derive(serde::Serialize))]
#[non_exhaustive]
pub struct Font {
    /// The row number of its texture.
    pub texture: u32,
    /// How far a line is below the one before.
    pub line_spacing: i32,
    /// How far glyphs are apart, besides their own distances.
    pub spacing: f32,
    /// The character that is set in place of one that is missing.
    pub default: Option<char>,
    /// By rising character.
    glyphs: Vec<Glyph>,
}

/// A character of a font.
#[derive(Clone, Copy, Debug, PartialEq)]
#[cfg_attr(feature = "serde", derive(serde::Serialize))]
#[non_exhaustive]
pub struct Glyph {
    /// The character that it shows.
    pub character: char,
    /// Its part of the texture.
    pub bounds: Rectangle,
    /// Where that part is in the character's own area, and the size of that area.
    pub cropping: Rectangle,
    /// How far the pen goes.
    pub kerning: Kerning,
}

/// How far the pen goes for a glyph: before it, over it and behind it.
#[derive(Clone, Copy, Debug, PartialEq)]
#[cfg_attr(feature = "serde", derive(serde::Serialize))]
pub struct Kerning {
    /// Before the glyph, as a font's left side bearing.
    pub left: f32,
    /// Over the glyph.
    pub width: f32,
    /// Behind the glyph, as a font's right side bearing.
    pub right: f32,
}

/// A glyph where a text has it.
#[derive(Clone, Copy, Debug, PartialEq)]
#[cfg_attr(feature = "serde", derive(serde::Serialize))]
pub struct Placed {
    /// The glyph, which may be that of the default character.
    pub glyph: Glyph,
    /// How far right of the text's start its picture is.
    pub x: f32,
    /// How far below the text's upper side its picture is.
    pub y: f32,
}

impl<'f, S: Shaped, W: AsRef<[u32]>> Grid<'f, S, W> {
    /// The font of a row.
    ///
    /// ```
    /// # let path = corpus::folder::folder().join("ok-kind-33-font.xnb");
    /// # let file = std::fs::read(path).expect("a kept file");
    /// let table = xnb::Table::load(&file)?;
    /// let font = table.font(0)?;
    /// for glyph in font.glyphs() {
    ///     assert_eq!(font.glyph(glyph.character), Some(glyph));
    /// }
    /// let picture = table.picture(font.texture)?;
    /// assert_eq!(picture.levels().len(), 1);
    /// # Ok::<(), xnb::Refused>(())
    /// ```
    pub fn font(&self, number: u32) -> Result<Font, Refused> {
        self.fields(number, Kind::SpriteFont).map(Font::take)
    }
}

impl Font {
    fn take(mut fields: Fields) -> Font {
        let texture = fields.number();
        let bounds = fields.each(Rectangle::of);
        let croppings = fields.each(Rectangle::of);
        let characters = fields.each(character);
        let (line_spacing, [spacing]) = (fields.i32(), fields.floats());
        let kernings = fields.each(Kerning::of);
        let default = fields.each(character).first().copied();
        let places = bounds.into_iter().zip(croppings).zip(kernings);
        let glyphs = characters.into_iter().zip(places);
        let glyphs = glyphs.map(|(character, ((bounds, cropping), kerning))| Glyph {
            character,
            bounds,
            cropping,
            kerning,
        });
        Font {
            texture,
            line_spacing,
            spacing,
            default,
            glyphs: glyphs.collect(),
        }
    }

    /// Every glyph, by rising character.
    pub fn glyphs(&self) -> &[Glyph] {
        &self.glyphs
    }

    /// The glyph of a character.
    pub fn glyph(&self, character: char) -> Option<&Glyph> {
        let place = self
            .glyphs
            .binary_search_by_key(&character, |it| it.character);
        Some(&self.glyphs[place.ok()?])
    }

    /// The glyph of a character, or else of the default character.
    pub fn glyph_or_default(&self, character: char) -> Option<&Glyph> {
        let default = || self.glyph(self.default?);
        self.glyph(character).or_else(default)
    }

    /// A text set in the font, as XNA's `SpriteBatch.DrawString` sets it.
    ///
    /// A character that has no glyph is left out where there is no default (XNA refuses such a text).
    pub fn set(&self, text: &str) -> Vec<Placed> {
        let mut placed = Vec::new();
        let (mut x, mut y, mut starts) = (0.0, 0.0, true);
        for character in text.chars() {
            match character {
                '\r' => continue,
                '\n' => {
                    (x, starts) = (0.0, true);
                    y += self.line_spacing as f32;
                    continue;
                }
                _ => {}
            }
            let Some(glyph) = self.glyph_or_default(character) else {
                continue;
            };
            // The first glyph of a line is no further left than the line.
            let left = glyph.kerning.left;
            x += if starts {
                left.max(0.0)
            } else {
                self.spacing + left
            };
            starts = false;
            placed.push(Placed {
                glyph: *glyph,
                x: x + glyph.cropping.x as f32,
                y: y + glyph.cropping.y as f32,
            });
            x += glyph.kerning.width + glyph.kerning.right;
        }
        placed
    }
}

impl Kerning {
    fn of(bytes: &[u8]) -> Kerning {
        let [left, width, right] = numbers(bytes);
        Kerning { left, width, right }
    }
}

#[cfg(test)]
mod tests {
    use super::*;

    fn glyph(character: char, [left, width, right]: [f32; 3]) -> Glyph {
        let cropping = Rectangle {
            x: 1,
            y: 2,
            ..Rectangle::default()
        };
        Glyph {
            character,
            bounds: Rectangle::default(),
            cropping,
            kerning: Kerning { left, width, right },
        }
    }

    fn font(default: Option<char>) -> Font {
        Font {
            texture: 1,
            line_spacing: 20,
            spacing: 3.0,
            default,
            glyphs: vec![glyph('a', [-1.0, 10.0, 2.0]), glyph('b', [4.0, 8.0, -1.0])],
        }
    }

    fn places(font: &Font, text: &str) -> Vec<(char, f32, f32)> {
        let placed = font.set(text).into_iter();
        placed.map(|it| (it.glyph.character, it.x, it.y)).collect()
    }

    #[test]
    fn a_text_is_set_as_xna_sets_it() {
        // The first glyph of a line is at max(left, 0); the pen then goes width and right on, and spacing and left.
        let expected = [
            ('a', 1.0, 2.0),
            ('b', 20.0, 2.0),
            ('b', 5.0, 22.0),
            ('a', 14.0, 22.0),
        ];
        assert_eq!(places(&font(None), "ab\r\nba"), expected);
    }

    #[test]
    fn a_missing_character_is_the_default_or_left_out() {
        assert_eq!(places(&font(None), "?a"), places(&font(None), "a"));
        assert_eq!(places(&font(Some('b')), "?a"), places(&font(None), "ba"));
        assert_eq!(font(None).glyph('b').map(|it| it.character), Some('b'));
        assert_eq!(font(None).glyph('c'), None);
        // A default character that has no glyph itself helps nothing.
        assert_eq!(font(Some('z')).glyph_or_default('c'), None);
    }
}
