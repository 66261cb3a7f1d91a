//! The files of a UFO's default layer, as its contents.plist names them.

use std::fs;
use std::path::{Path, PathBuf};

use crate::plist;

/// The name and the file of each glyph; or why there are none.
pub fn glyphs(folder: &Path) -> Result<Vec<(String, PathBuf)>, String> {
    let layer = folder.join("glyphs");
    let contents = layer.join("contents.plist");
    let bytes = fs::read(&contents).map_err(|error| format!("{}: {error}", contents.display()))?;
    let named = plist::named(&contents, &bytes)?;
    Ok(named.into_iter().map(|(name, file)| (name, layer.join(file))).collect())
}
