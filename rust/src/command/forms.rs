//! Tables, questions and answers as the bytes of a file.

/// A table's words; an odd byte at the end is left out.
pub fn table(bytes: &[u8]) -> Vec<u16> {
    let (words, _) = bytes.as_chunks::<2>();
    words.iter().map(|word| u16::from_le_bytes(*word)).collect()
}

/// The bytes of a table's words.
pub fn table_bytes(words: &[u16]) -> Vec<u8> {
    words.iter().flat_map(|word| word.to_le_bytes()).collect()
}

/// How a file holds questions and answers.
#[derive(Clone, Copy)]
pub enum Form {
    /// Lines of three numbers.
    Text,
    /// 32-bit words, low byte first.
    Binary,
}

impl Form {
    /// The words of questions, or what is wrong with them.
    pub fn read(self, bytes: &[u8]) -> Result<Vec<u32>, String> {
        match self {
            Form::Text => read_lines(bytes),
            Form::Binary => read_words(bytes),
        }
    }

    /// The file of answers.
    pub fn write(self, words: &[u32]) -> Vec<u8> {
        match self {
            Form::Text => write_lines(words),
            Form::Binary => words.iter().flat_map(|word| word.to_le_bytes()).collect(),
        }
    }
}

fn read_words(bytes: &[u8]) -> Result<Vec<u32>, String> {
    let (words, rest) = bytes.as_chunks::<4>();
    if rest.is_empty() {
        Ok(words.iter().map(|word| u32::from_le_bytes(*word)).collect())
    } else {
        Err("questions are words of 4 bytes".into())
    }
}

fn read_lines(bytes: &[u8]) -> Result<Vec<u32>, String> {
    let text = std::str::from_utf8(bytes).map_err(|_| "questions are not text")?;
    let mut words = Vec::new();
    for (index, line) in text.lines().enumerate() {
        let numbers: Result<Vec<u32>, _> = line.split_whitespace().map(str::parse).collect();
        match numbers.as_deref() {
            Ok([kind, a, b]) => words.extend([kind, a, b]),
            _ => {
                return Err(format!(
                    "line {} is not three numbers of 32 bits",
                    index + 1
                ))
            }
        }
    }
    Ok(words)
}

fn write_lines(words: &[u32]) -> Vec<u8> {
    let (answers, _) = words.as_chunks::<3>();
    let lines = answers
        .iter()
        .map(|[code, value, sort]| format!("{code} {value} {sort}\n"));
    lines.collect::<String>().into_bytes()
}
