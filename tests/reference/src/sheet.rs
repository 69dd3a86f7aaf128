//! The sheet: every pool as used and free rows.

use crate::image::loaded;
use crate::prefix::{Prefix, LONGEST};
use crate::refusal::{refusal, Refusal};
use crate::table::{Lease, Table};

/// What the sheet program prints for an image: the sheet, or `refused 5`.
pub fn sheet_of_image(image: &[u8]) -> String {
    match loaded(image).and_then(|table| sheet(&table)) {
        Ok(rows) => rows,
        Err(refusal) => format!("refused {}\n", refusal.number),
    }
}

/// The sheet of a table, every row with its newline. It has no time: every lease in
/// the table is `used`.
pub fn sheet(table: &Table) -> Result<String, Refusal> {
    if !table.sound() {
        return Err(refusal(5));
    }
    let leases = table.used_leases();
    let mut rows = Vec::new();
    // "Walking each root in ascending order".
    for &pool in table.used_pools() {
        show(pool, leases, &mut rows);
    }
    // "`free=` counts the free rows".
    let free = rows.iter().filter(|row| row.starts_with("free ")).count();
    let mut text = format!("sheet lines={} free={free}\n", leases.len());
    for row in rows {
        text.push_str(&row);
        text.push('\n');
    }
    Ok(text)
}

/// "a block that is partly taken is shown as its two halves, the lower first; a line
/// prints `used`, held or leased".
fn show(block: Prefix, leases: &[Lease], rows: &mut Vec<String>) {
    let inside: Vec<Lease> = leases
        .iter()
        .copied()
        .filter(|lease| lease.prefix.shares_address_with(block))
        .collect();
    if inside.is_empty() {
        rows.push(format!("free {block}"));
    } else if inside[0].prefix == block {
        let lease = inside[0];
        rows.push(format!(
            "used {block} station {} until {}{}",
            lease.client,
            lease.expires,
            name_text(&lease)
        ));
    } else if block.length < LONGEST {
        for half in block.halves() {
            show(half, &inside, rows);
        }
    }
}

/// M-105 in document 02: "a named line's row ends with ` name ` and its octets, those outside
/// 0x20 to 0x7E as `?`".
fn name_text(lease: &Lease) -> String {
    let octets = lease.name.octets();
    if octets.is_empty() {
        return String::new();
    }
    let shown = octets.iter().map(|&octet| match octet {
        0x20..=0x7e => char::from(octet),
        _ => '?',
    });
    format!(" name {}", shown.collect::<String>())
}
