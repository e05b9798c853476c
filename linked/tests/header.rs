//! The constants of sanding.h are those of this package.

#[test]
fn the_header_has_the_same_constants() {
    let header = include_str!("../sanding.h");
    let constant = |name: &str| {
        let mut lines = header.lines().map(|line| line.split_whitespace().collect::<Vec<_>>());
        let line = lines.find(|line| line.starts_with(&["#define", name])).expect(name);
        line[2].parse::<usize>().expect(name)
    };
    assert_eq!(constant("SANDING_SHEET"), sanding::SHEET);
    assert_eq!(constant("SANDING_ROOM"), sanding::ROOM);
    assert_eq!(constant("SANDING_STACK"), sanding::STACK);
}
