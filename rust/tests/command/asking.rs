//! Questions and answers in lines and in words.

use crate::folder::Folder;
use crate::image;
use glouds::make::{self, Xorshift, DRAWN};
use glouds::plain;

fn long_words(words: &[u32]) -> Vec<u8> {
    words.iter().flat_map(|word| word.to_le_bytes()).collect()
}

#[test]
fn asks_in_lines() {
    let folder = Folder::new("lines").with("image", &image(&DRAWN));
    let questions = "1 1 11\n2 0 4\n4 3 1\n6\t7  3\r\n 5 7 0 \n9 0 0\n3 9 0\n4 3 3";
    let answers = "0 6 0\n0 9 0\n0 4 2\n0 8 2\n0 3 0\n31 0 0\n32 0 0\n33 0 0\n";
    let folder = folder.with("questions", questions.as_bytes());
    folder
        .run(&["ask", "image", "questions"])
        .done(answers.as_bytes());
    folder
        .run_with(&["ask", "image"], questions.as_bytes())
        .done(answers.as_bytes());
    folder
        .run_with(&["ask", "-", "questions"], &folder.read("image"))
        .done(answers.as_bytes());
    folder
        .run(&["ask", "image", "questions", "answers"])
        .done(b"");
    assert_eq!(folder.read("answers"), answers.as_bytes());
    folder
        .run_with(&["ask", "image", "-", "answers"], b"")
        .done(b"");
    assert_eq!(folder.read("answers"), b"");

    for (lines, words) in [
        ("3 1 0\n3 1\n", "-: line 2 is not three numbers of 32 bits"),
        ("3 1 0 0\n", "line 1"),
        ("3 1 0\n\n3 1 0\n", "line 2"),
        ("3 1 -1\n", "line 1"),
        ("3 1 4294967296\n", "line 1"),
        ("three 1 0\n", "line 1"),
    ] {
        folder
            .run_with(&["ask", "image"], lines.as_bytes())
            .trouble(words);
    }
    folder
        .run_with(&["ask", "image"], b"3 1 \xff\n")
        .trouble("not text");
    folder.run(&["ask", "-"]).trouble("wrong use");
    folder.run(&["ask", "-", "-"]).trouble("wrong use");
}

#[test]
fn asks_in_words() {
    let folder = Folder::new("words").with("image", &image(&DRAWN));
    let questions = long_words(&[1, 1, 11, 2, 0, 4, 4, 3, 1, u32::MAX, 0, 0]);
    let answers = long_words(&[0, 6, 0, 0, 9, 0, 0, 4, 2, 31, 0, 0]);
    let folder = folder.with("questions", &questions);
    folder
        .run_with(&["ask", "--binary", "image"], &questions)
        .done(&answers);
    folder
        .run(&["ask", "--binary", "image", "questions", "answers"])
        .done(b"");
    assert_eq!(folder.read("answers"), answers);

    let ran = folder.run_with(
        &["ask", "--binary", "image", "-", "answers"],
        &questions[..16],
    );
    ran.refused("-", 41);
    let ran = folder.run_with(
        &["ask", "--binary", "image", "-", "answers"],
        &questions[..13],
    );
    ran.trouble("words of 4 bytes");
    assert_eq!(folder.read("answers"), answers);
    assert_eq!(folder.names(), ["answers", "image", "questions"]);
}

/// Every question of a random graph, beside the plain answerer.
#[test]
fn asks_beside_the_plain_answerer() {
    let image = image(&make::random(300, 700, 4, &mut Xorshift::new(227)).table());
    let opened = plain::open(&image).unwrap();
    let (mut questions, mut answers) = (String::new(), String::new());
    for kind in 0..8 {
        for a in 0..400 {
            for b in 0..5 {
                let [code, value, sort] = plain::answer(&opened, kind, a, b);
                questions += &format!("{kind} {a} {b}\n");
                answers += &format!("{code} {value} {sort}\n");
            }
        }
    }
    let folder = Folder::new("answerer").with("image", &image);
    folder
        .run_with(&["ask", "image"], questions.as_bytes())
        .done(answers.as_bytes());
}
