//! The refusal numbers and document 01's words for each.

/// The words of a refusal number, if there is such a number.
pub fn words(number: u32) -> Option<&'static str> {
    Some(match number {
        1 => "table ends before a word that is called for",
        2 => "n above 30,000, or an operand count takes m above 65,535",
        3 => "operand outside 1 to n",
        4 => "root outside 1 to n",
        5 => "root named before",
        6 => "words after the roots",
        7 => "work shorter than 3n words of 32 bits, or order list shorter than n",
        8 => "a node that no root reaches",
        9 => "image buffer too short",
        21 => "image ends before a count or contents called for",
        22 => "L above 125,536, n above 30,000 or m above 65,535",
        23 => "section 1 breaks another rule of a proper image",
        24 => "section 2: wrong count or entry",
        25 => "sections 3 to 9: wrong count or entry",
        26 => "bytes after section 9",
        31 => "one question: unknown kind",
        32 => "one question: first number outside",
        33 => "one question: second number outside",
        41 => "question words not a multiple of 3",
        42 => "answer buffer shorter than the questions",
        43 => "a tally field plus the number of questions would pass 4,294,967,295",
        51 => "unpacked table does not fit",
        61 => "listing program: odd number of bytes, or more than 8,000",
        _ => return None,
    })
}
