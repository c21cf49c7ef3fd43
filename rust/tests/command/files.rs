//! Files that are missing, cannot be written, are links, or were left behind.

use crate::folder::{run, Folder, COMMAND};
use crate::image;
use glouds::make::{bytes, DRAWN};
use std::fs::{self, File};
use std::process::{Command, Stdio};

#[test]
fn missing_files() {
    let folder = Folder::new("missing").with("image", &image(&DRAWN));
    for arguments in [
        &["pack", "gone", "new"][..],
        &["check", "gone"],
        &["unpack", "gone", "new"],
        &["ask", "gone", "image", "new"],
        &["ask", "image", "gone", "new"],
        &["list", "gone"],
        &["same", "gone", "image"],
        &["same", "image", "gone"],
    ] {
        folder
            .run(arguments)
            .trouble("gone: cannot read: No such file");
    }
    folder
        .run(&["check", "."])
        .trouble(".: cannot read: Is a directory");
    assert_eq!(folder.names(), ["image"]);
}

/// Places where no file can be made.
#[test]
fn unwritable_places() {
    let folder = Folder::new("places")
        .with("table", &bytes(&DRAWN))
        .with("image", &image(&DRAWN));
    fs::create_dir(folder.0.join("folder")).unwrap();
    for (place, words) in [
        ("gone/new", "No such file"),
        ("table/new", "Not a directory"),
        ("folder", "is a directory"),
        ("/proc/new", "/proc/new: cannot write"),
        ("", "cannot write"),
    ] {
        folder.run(&["pack", "table", place]).trouble(words);
        folder
            .run(&["pack", "table", place, "order"])
            .trouble(words);
        folder.run(&["pack", "table", "new", place]).trouble(words);
        folder.run(&["unpack", "image", place]).trouble(words);
        folder
            .run_with(&["ask", "image", "-", place], b"")
            .trouble(words);
    }
    assert_eq!(folder.names(), ["folder", "image", "table"]);
    assert_eq!(folder.read("table"), bytes(&DRAWN));
}

/// A disk without room, as a file and as standard output.
#[test]
fn full_disk() {
    let folder = Folder::new("full")
        .with("table", &bytes(&DRAWN))
        .with("image", &image(&DRAWN))
        .with("order", b"old order");
    let no_space = "No space left";
    folder
        .run(&["pack", "table", "/dev/full"])
        .trouble(no_space);
    folder
        .run(&["pack", "table", "/dev/full", "order"])
        .trouble(no_space);
    folder
        .run(&["pack", "table", "new", "/dev/full"])
        .trouble(no_space);
    folder
        .run(&["unpack", "image", "/dev/full"])
        .trouble(no_space);
    folder
        .run_with(&["ask", "image", "-", "/dev/full"], b"3 1 0")
        .trouble(no_space);
    for arguments in [
        &["pack", "table", "-", "order"][..],
        &["unpack", "image", "-"],
        &["ask", "image", "table", "-"],
        &["list", "table"],
        &["help"],
    ] {
        let mut command = folder.command(arguments);
        let full = File::options().write(true).open("/dev/full").unwrap();
        let output = command.stdin(Stdio::null()).stdout(full).output().unwrap();
        assert_eq!(output.status.code(), Some(2), "{arguments:?}");
    }
    // Where not even the words can be written, the status still tells.
    for (arguments, status) in [(&["check", "table"][..], 1), (&["check"], 2)] {
        let mut command = folder.command(arguments);
        let full = File::options().write(true).open("/dev/full").unwrap();
        assert_eq!(command.stderr(full).status().unwrap().code(), Some(status));
    }
    assert_eq!(folder.read("order"), b"old order");
    assert_eq!(folder.names(), ["image", "order", "table"]);
}

/// A file that may not grow: the draft beside the target cannot be written.
#[test]
fn full_disk_under_the_draft() {
    let folder = Folder::new("draft")
        .with("table", &bytes(&DRAWN))
        .with("image", b"old image")
        .with("order", b"old order");
    for arguments in [
        &["pack", "table", "image"][..],
        &["pack", "table", "image", "order"],
        &["pack", "table", "new", "order"],
    ] {
        let mut command = Command::new("sh");
        let limited = r#"trap "" XFSZ; ulimit -f 0; exec "$0" "$@""#;
        command.args(["-c", limited, COMMAND]).args(arguments);
        command.current_dir(&folder.0);
        run(command, &[]).trouble("File too large");
    }
    assert_eq!(folder.read("image"), b"old image");
    assert_eq!(folder.read("order"), b"old order");
    assert_eq!(folder.names(), ["image", "order", "table"]);
}

/// A link stays a link, and permissions stay.
#[cfg(unix)]
#[test]
fn links_and_permissions() {
    use std::os::unix::fs::{symlink, PermissionsExt};
    let folder = Folder::new("links")
        .with("table", &bytes(&DRAWN))
        .with("real", b"old");
    let mode = |name: &str| {
        fs::metadata(folder.0.join(name))
            .unwrap()
            .permissions()
            .mode()
    };
    fs::set_permissions(folder.0.join("real"), fs::Permissions::from_mode(0o640)).unwrap();
    symlink("real", folder.0.join("link")).unwrap();
    folder.run(&["pack", "table", "link"]).done(b"");
    assert_eq!(folder.read("real"), image(&DRAWN));
    assert!(fs::symlink_metadata(folder.0.join("link"))
        .unwrap()
        .is_symlink());
    assert_eq!(mode("real") & 0o777, 0o640);
    folder
        .run(&["pack", "table", "real", "link"])
        .trouble("two outputs go to");
    folder
        .run(&["pack", "table", "new", "./new"])
        .trouble("two outputs go to");
    assert_eq!(folder.names(), ["link", "real", "table"]);
}

/// A draft that was left by a run that was killed is in nobody's way.
#[test]
fn left_drafts() {
    let folder = Folder::new("left").with("table", &bytes(&DRAWN));
    let script = r#"for n in 0 1 2; do : > .glouds.$$.$n.part; done; exec "$0" pack table image"#;
    let mut command = Command::new("sh");
    command.args(["-c", script, COMMAND]).current_dir(&folder.0);
    run(command, &[]).done(b"");
    assert_eq!(folder.read("image"), image(&DRAWN));
    assert_eq!(folder.names().len(), 5);
}
