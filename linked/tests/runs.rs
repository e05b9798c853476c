//! The sheets of this repository through the linked library: each gives its text.

use std::fs;
use std::path::Path;

#[test]
fn every_sheet_gives_its_text() {
    let folder = Path::new(env!("CARGO_MANIFEST_DIR")).join("../sheets");
    let files = fs::read_dir(folder).unwrap().map(|entry| entry.unwrap().path());
    let sheets: Vec<_> = files.filter(|file| file.extension().is_some_and(|end| end == "sheet")).collect();
    assert!(sheets.iter().any(|file| file.ends_with("run-04.sheet")));
    for file in sheets {
        let text = sanding::text(&fs::read(&file).unwrap());
        let wanted = fs::read(file.with_extension("text")).unwrap();
        assert_eq!(second::differ::difference(&wanted, &text), None, "{}", file.display());
    }
}
