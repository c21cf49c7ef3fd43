//! The listing of a table, from the library's packing and answering.

use glouds::{owned, Tally};

/// The listing's lines, or a refusal (1 to 6, 8).
pub fn text(table: &[u16]) -> Result<String, u32> {
    let (order, image) = owned::pack(table)?;
    let (n, l) = (order.len(), table.len() - 1);
    // The super-root's ones end at the first zero.
    let c = values(&image, &[[2, 0, 1]])?[0][0] as usize;
    let m = l - 1 - n - c;
    let k = m + c - n;
    let bytes = image.len();
    let mut text = format!("nodes {n} edges {m} roots {c} trits {l} shadows {k} bytes {bytes}\n");
    let operands = neighbours(&image, n, 3)?;
    let users = neighbours(&image, n, 5)?;
    for (index, (operands, users)) in operands.iter().zip(&users).enumerate() {
        text += &format!("{}:{operands} |{users}\n", index + 1);
    }
    Ok(text)
}

/// Value and sort of each question's answer.
fn values(image: &[u8], questions: &[[u32; 3]]) -> Result<Vec<[u32; 2]>, u32> {
    let answers = owned::ask(image, questions.as_flattened(), &mut Tally::default())?;
    let pairs = answers.chunks(3).map(|answer| [answer[1], answer[2]]);
    Ok(pairs.collect())
}

/// Each node's operands or users as text: `kind`, 3 or 5, counts them and the
/// next kind gives them.
fn neighbours(image: &[u8], n: usize, kind: u32) -> Result<Vec<String>, u32> {
    let nodes = 1..=n as u32;
    let counting: Vec<_> = nodes.clone().map(|node| [kind, node, 0]).collect();
    let counts = values(image, &counting)?;
    let naming: Vec<_> = nodes
        .zip(&counts)
        .flat_map(|(node, &[count, _])| (1..=count).map(move |b| [kind + 1, node, b]))
        .collect();
    let mut named = values(image, &naming)?.into_iter();
    let shown = |[node, sort]: [u32; 2]| format!(" {node}{}", if sort == 2 { "*" } else { "" });
    let lines = counts
        .iter()
        .map(|&[count, _]| named.by_ref().take(count as usize).map(shown).collect());
    Ok(lines.collect())
}
