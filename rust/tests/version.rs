//! The header and the packages have one version.

use zohapy::VERSION;

const HEADER: &str = include_str!("../../include/zohapy.h");

#[test]
fn the_header_has_the_version_of_the_packages() {
    let versions: Vec<&str> = HEADER.lines().filter_map(|line| line.strip_prefix("#define ZOHAPY_VERSION ")).collect();
    assert_eq!(versions, [format!("\"{VERSION}\"")]);
}
