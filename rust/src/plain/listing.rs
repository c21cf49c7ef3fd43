//! The listing of a table, as the program `list` writes it.

use super::{open, pack_graph, read, Neighbour};

/// What the listing program prints for these bytes of standard input.
pub fn listing(bytes: &[u8]) -> Vec<u8> {
    let text = if !bytes.len().is_multiple_of(2) || bytes.len() > 8_000 {
        Err(61)
    } else {
        let pairs = bytes.chunks(2);
        let table: Vec<u16> = pairs
            .map(|pair| u16::from_le_bytes([pair[0], pair[1]]))
            .collect();
        listed(&table)
    };
    text.unwrap_or_else(|refusal| format!("refused {refusal}\n"))
        .into_bytes()
}

/// The listing's lines for a table of any length, or a refusal (1 to 6, 8).
pub fn listed(table: &[u16]) -> Result<String, u32> {
    let graph = read(table)?;
    let packed = pack_graph(&graph)?;
    let opened = open(&packed.image).expect("a packed image is proper");
    let mut text = format!(
        "nodes {} edges {} roots {} trits {} shadows {} bytes {}\n",
        graph.nodes(),
        graph.edges(),
        graph.roots.len(),
        packed.trits.len(),
        packed.shadows.len(),
        packed.image.len()
    );
    let shown = |list: &[Neighbour]| -> String {
        list.iter()
            .map(|(node, sort)| format!(" {node}{}", if *sort == 2 { "*" } else { "" }))
            .collect()
    };
    for (index, (operands, users)) in opened.operands.iter().zip(&opened.users).enumerate() {
        text += &format!("{}:{} |{}\n", index + 1, shown(operands), shown(users));
    }
    Ok(text)
}
