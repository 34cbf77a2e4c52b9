//! One version, that of `rust/Cargo.toml`, wherever one is told. That of pkg-config is seen in install.rs, that of mrtgrep in its arguments.rs.

use cases::stored;

const VERSION: &str = env!("CARGO_PKG_VERSION");

fn text(name: &str) -> String {
    String::from_utf8(stored(name)).expect(name)
}

/// Whether a file has a line.
fn has(name: &str, line: &str) {
    assert!(
        text(name).lines().any(|row| row == line),
        "{name}: no {line}"
    );
}

#[test]
fn the_crates_have_it() {
    has("rust/Cargo.toml", &format!("version = \"{VERSION}\""));
    for name in [
        "cases",
        "differential",
        "grainlantern",
        "mrtgrep",
        "reference",
    ] {
        has(
            &format!("rust/{name}/Cargo.toml"),
            "version.workspace = true",
        );
    }
    // built alone, so it can't ask the others
    has("bench/Cargo.toml", &format!("version = \"{VERSION}\""));
}

#[test]
fn the_header_has_it_as_text_and_as_a_number() {
    let parts: Vec<u32> = VERSION
        .split('.')
        .map(|part| part.parse().unwrap())
        .collect();
    let number = parts.iter().fold(0, |number, part| 1000 * number + part);
    for line in [
        format!("#define GRAINLANTERN_VERSION \"{VERSION}\""),
        format!("#define GRAINLANTERN_VERSION_NUMBER {number}"),
    ] {
        has("include/grainlantern.h", &line);
    }
}

#[test]
fn the_manual_pages_have_it() {
    for name in ["grainlantern", "mrtgrep"] {
        let page = text(&format!("man/{name}.1"));
        let title = page.lines().next().unwrap();
        let source = format!(" \"Grainlantern {VERSION}\" ");
        assert!(
            title.starts_with(".TH ") && title.contains(&source),
            "{title}"
        );
    }
}
