//! Writes what was measured into the documents.
use std::fs;
use std::path::Path;

/// Puts tables between two marks of a document.
pub fn write(folder: &Path, document: &str, mark: &str, tables: &str) {
    let (begin, end) = (format!("<!-- {mark}: begin -->\n"), format!("<!-- {mark}: end -->\n"));
    let path = folder.join(document);
    let text = fs::read_to_string(&path).unwrap_or_else(|error| panic!("{}: {error}", path.display()));
    let parts = text.split_once(&begin).and_then(|(before, rest)| Some((before, rest.split_once(&end)?.1)));
    let (before, after) = parts.unwrap_or_else(|| panic!("{document} has no two marks '{mark}'"));
    let text = format!("{before}{begin}\n{}\n\n{end}{after}", tables.trim_end());
    fs::write(&path, text).unwrap_or_else(|error| panic!("{}: {error}", path.display()));
}

/// Puts the plot beside it.
pub fn draw(folder: &Path, plot: &str) {
    fs::write(folder.join("performance.svg"), plot).expect("performance.svg is written");
}
