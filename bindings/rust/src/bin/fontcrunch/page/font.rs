//! The glyphs of a TrueType font: its table directory, `head`, `maxp`, `loca`, `glyf` and the names of `post`.

use super::names::STANDARD;

/// A glyph that has a description.
#[derive(Debug, PartialEq, Eq)]
pub struct Glyph<'a> {
    pub name: String,
    pub description: &'a [u8],
}

/// Whether these bytes start as a font does.
pub fn is_font(start: &[u8]) -> bool {
    [&b"\0\x01\0\0"[..], b"true", b"OTTO", b"ttcf"].iter().any(|magic| start.starts_with(magic))
}

/// The glyphs in the order of the font, those of no outline left out; or why there are none.
pub fn glyphs(bytes: &[u8]) -> Result<Vec<Glyph<'_>>, String> {
    match bytes.get(..4) {
        Some(b"OTTO") => return Err("the font has cubic outlines (CFF), and no glyf table".to_owned()),
        Some(b"ttcf") => return Err("a collection of fonts is not read; take one font out of it".to_owned()),
        _ => {}
    }
    let font = Tables { bytes };
    let glyf = font.table(b"glyf").ok_or("the font has no glyf table")?;
    let ends = font.offsets().ok_or("the font's head, maxp or loca table is cut short")?;
    let names = font.names(ends.len().saturating_sub(1));
    let mut glyphs = vec![];
    for (pair, name) in ends.windows(2).zip(names) {
        if pair[0] == pair[1] {
            continue;
        }
        let description =
            glyf.get(pair[0]..pair[1]).ok_or("an offset of the loca table is outside the glyf table")?;
        glyphs.push(Glyph { name, description });
    }
    Ok(glyphs)
}

struct Tables<'a> {
    bytes: &'a [u8],
}

fn word(bytes: &[u8], at: usize) -> Option<usize> {
    Some(usize::from(u16::from_be_bytes(bytes.get(at..at + 2)?.try_into().ok()?)))
}

fn long(bytes: &[u8], at: usize) -> Option<usize> {
    Some(u32::from_be_bytes(bytes.get(at..at + 4)?.try_into().ok()?) as usize)
}

impl<'a> Tables<'a> {
    fn table(&self, tag: &[u8; 4]) -> Option<&'a [u8]> {
        let count = word(self.bytes, 4)?;
        let record = (0..count).map(|i| 12 + 16 * i).find(|&at| self.bytes.get(at..at + 4) == Some(tag))?;
        let (from, length) = (long(self.bytes, record + 8)?, long(self.bytes, record + 12)?);
        self.bytes.get(from..from.checked_add(length)?)
    }

    /// Where each glyph starts in the glyf table, and where the last one ends.
    fn offsets(&self) -> Option<Vec<usize>> {
        let long_offsets = word(self.table(b"head")?, 50)? != 0;
        let count = word(self.table(b"maxp")?, 4)?;
        let loca = self.table(b"loca")?;
        (0..=count)
            .map(|i| if long_offsets { long(loca, 4 * i) } else { Some(2 * word(loca, 2 * i)?) })
            .collect()
    }

    /// Those of post's format 2; any other glyph is called by its number.
    fn names(&self, count: usize) -> Vec<String> {
        let post = self.table(b"post").filter(|post| post.starts_with(&[0, 2, 0, 0])).unwrap_or_default();
        let own = own_names(post);
        let named = |i: usize| {
            let index = word(post, 34 + 2 * i)?;
            let standard: Vec<&str> = STANDARD.split_ascii_whitespace().collect();
            match index.checked_sub(standard.len()) {
                None => Some(standard[index].to_owned()),
                Some(place) => own.get(place).cloned(),
            }
        };
        (0..count).map(|i| named(i).unwrap_or_else(|| format!("glyph {i}"))).collect()
    }
}

/// The names that follow the indices, each after its length.
fn own_names(post: &[u8]) -> Vec<String> {
    let mut names = vec![];
    let mut at = 34 + 2 * word(post, 32).unwrap_or(0);
    while let Some(&length) = post.get(at) {
        let Some(name) = post.get(at + 1..at + 1 + usize::from(length)) else {
            break;
        };
        names.push(String::from_utf8_lossy(name).into_owned());
        at += 1 + usize::from(length);
    }
    names
}

#[cfg(test)]
mod tests {
    use super::*;

    /// A font of these tables.
    fn font(tables: &[(&[u8; 4], Vec<u8>)]) -> Vec<u8> {
        let mut bytes = b"\0\x01\0\0".to_vec();
        bytes.extend((tables.len() as u16).to_be_bytes());
        bytes.extend([0; 6]);
        let mut at = 12 + 16 * tables.len();
        for (tag, table) in tables {
            bytes.extend(*tag);
            bytes.extend([0; 4]);
            bytes.extend((at as u32).to_be_bytes());
            bytes.extend((table.len() as u32).to_be_bytes());
            at += table.len();
        }
        tables.iter().for_each(|(_, table)| bytes.extend(table));
        bytes
    }

    fn whole() -> Vec<(&'static [u8; 4], Vec<u8>)> {
        let mut post = [0, 2, 0, 0].to_vec();
        post.extend([0; 28]);
        // three glyphs: .notdef, the first name of its own, and A, which is 36 of the standard ones
        post.extend([0, 3, 0, 0, 1, 2, 0, 36, 2, b'h', b'i']);
        vec![
            (b"glyf", vec![1, 2, 3, 4, 5, 6]),
            (b"head", vec![0; 54]),
            (b"loca", vec![0, 0, 0, 0, 0, 2, 0, 3]),
            (b"maxp", vec![0, 1, 0, 0, 0, 3]),
            (b"post", post),
        ]
    }

    #[test]
    fn glyphs_with_their_names() {
        let bytes = font(&whole());
        let glyphs = glyphs(&bytes).unwrap();
        let told: Vec<(&str, &[u8])> = glyphs.iter().map(|g| (g.name.as_str(), g.description)).collect();
        assert_eq!(told, [("hi", &[1, 2, 3, 4][..]), ("A", &[5, 6])]);
    }

    #[test]
    fn a_font_that_is_cut_short_is_told() {
        assert_eq!(STANDARD.split_ascii_whitespace().count(), 258);
        let bytes = font(&whole());
        for length in 0..bytes.len() {
            // whatever is cut, nothing is read past the end
            let _ = glyphs(&bytes[..length]);
        }
        assert!(glyphs(b"OTTO\0\0").unwrap_err().contains("CFF"));
        assert!(glyphs(b"\0\x01\0\0\0\0").unwrap_err().contains("no glyf table"));
        let mut far = whole();
        far[2].1 = vec![0, 0, 0, 0, 0, 2, 0, 9];
        assert!(glyphs(&font(&far)).unwrap_err().contains("outside"));
    }
}
