//! Standard streams and pipes with a name.

use crate::folder::Folder;
use crate::image;
use glouds::make::{self, bytes, DRAWN};
use std::fs;
use std::process::{Command, Stdio};

#[test]
fn pipes() {
    let folder = Folder::new("pipes").with("table", &bytes(&DRAWN));
    let drawn = image(&DRAWN);
    folder
        .run_with(&["pack", "-", "-"], &bytes(&DRAWN))
        .done(&drawn);
    folder.run(&["pack", "table", "-", "order"]).done(&drawn);
    let order = bytes(&[1, 2, 3, 4, 5, 6, 7, 8]);
    assert_eq!(folder.read("order"), order);
    folder.run(&["pack", "table", "image", "-"]).done(&order);
    assert_eq!(folder.read("image"), drawn);
    folder.run_with(&["check", "-"], &drawn).done(b"");
    folder
        .run_with(&["unpack", "-", "-"], &drawn)
        .done(&bytes(&DRAWN));
    assert_eq!(folder.names(), ["image", "order", "table"]);
}

/// A pipe with a name is written to and not replaced.
#[test]
fn named_pipe() {
    let folder = Folder::new("named").with("table", &bytes(&DRAWN));
    let path = folder.0.join("pipe");
    let made = Command::new("mkfifo").arg(&path).status().unwrap();
    assert!(made.success());
    let reader = std::thread::spawn({
        let path = path.clone();
        move || fs::read(path).unwrap()
    });
    folder.run(&["pack", "table", "pipe"]).done(b"");
    assert_eq!(reader.join().unwrap(), image(&DRAWN));
    assert!(!fs::metadata(path).unwrap().is_file());
    folder
        .run(&["pack", "table", "/dev/stdout"])
        .done(&image(&DRAWN));
    assert_eq!(folder.names(), ["pipe", "table"]);
}

/// A reader that goes away is no success.
#[test]
fn closed_pipe() {
    let folder = Folder::new("closed").with("table", &bytes(&make::chain(30_000).table()));
    let mut command = folder.command(&["list", "--long", "table"]);
    let mut child = command
        .stdout(Stdio::piped())
        .stderr(Stdio::piped())
        .spawn()
        .unwrap();
    drop(child.stdout.take());
    let output = child.wait_with_output().unwrap();
    assert_eq!(output.status.code(), Some(2));
    assert!(String::from_utf8(output.stderr)
        .unwrap()
        .contains("Broken pipe"));
}
