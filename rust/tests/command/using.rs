//! Arguments: wrong use, names that are no text, and help.

use crate::folder::{run, Folder};
use crate::image;
use glouds::make::{bytes, DRAWN};
use std::ffi::OsStr;
use std::fs;

#[test]
fn wrong_use() {
    let folder = Folder::new("wrong")
        .with("a", &bytes(&DRAWN))
        .with("b", &image(&DRAWN));
    for arguments in [
        &[][..],
        &["tell"],
        &["Pack", "a", "new"],
        &["pack"],
        &["pack", "a"],
        &["pack", "a", "new", "order", "more"],
        &["pack", "a", "-", "-"],
        &["pack", "a", "new", "new"],
        &["pack", "--binary", "a", "new"],
        &["pack", "a", "new", "--order"],
        &["check"],
        &["check", "b", "b"],
        &["check", "--long", "b"],
        &["unpack", "b"],
        &["unpack", "b", "new", "new"],
        &["ask"],
        &["ask", "b", "a", "new", "new"],
        &["ask", "b", "--binary"],
        &["ask", "--long", "b"],
        &["list"],
        &["list", "a", "new"],
        &["list", "--longer", "a"],
        &["same", "b"],
        &["same", "b", "b", "b"],
        &["help", "pack"],
        &["--pack", "a", "new"],
    ] {
        folder.run(arguments).trouble("wrong use");
    }
    assert_eq!(folder.names(), ["a", "b"]);
}

/// An argument that is no text is a name of a file, or wrong use.
#[cfg(unix)]
#[test]
fn names_that_are_no_text() {
    use std::os::unix::ffi::OsStrExt;
    let folder = Folder::new("names").with("table", &bytes(&DRAWN));
    let name = OsStr::from_bytes(b"image\xff");
    let mut command = folder.command(&["pack", "table"]);
    command.arg(name);
    run(command, &[]).done(b"");
    assert_eq!(fs::read(folder.0.join(name)).unwrap(), image(&DRAWN));
    let mut command = folder.command(&[]);
    command.arg(name);
    run(command, &[]).trouble("wrong use");
}

#[test]
fn help() {
    let folder = Folder::new("help");
    let shown = folder.run(&["help"]);
    shown.done(&shown.output);
    let text = String::from_utf8(shown.output).unwrap();
    for name in ["pack", "check", "unpack", "ask", "list", "same"] {
        assert!(text.contains(&format!("\n  glouds {name} ")));
        folder.run(&[name, "--help"]).done(text.as_bytes());
    }
    assert!(text.lines().all(|line| line.len() <= 80));
    folder.run(&["--help"]).done(text.as_bytes());
}
