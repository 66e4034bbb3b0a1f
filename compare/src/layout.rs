//! The layouts of document 01, written from it: rule images, store tables and confirmed lists, both ways.

use crate::remote::policy::PruneExpr;
use std::time::Duration;

/// The most nodes and the most name bytes of an image.
const MOST: usize = 2048;

/// Appends a rule's nodes (tag, argument), children before their parent in text order, and its names. False where a combinator
/// has no child.
fn put(rule: &PruneExpr, nodes: &mut Vec<(u32, u64)>, names: &mut Vec<u8>) -> bool {
    let before = nodes.len();
    let (kind, argument, children): (u32, u64, &[PruneExpr]) = match rule {
        PruneExpr::Remote(name) => {
            let start = names.len() as u64;
            names.extend_from_slice(name.as_bytes());
            (0, start * 65_536 + name.len() as u64, &[])
        }
        PruneExpr::OlderThan(span) => (1, span.as_millis() as u64, &[]),
        PruneExpr::Readable(k) => (2, *k as u64, &[]),
        PruneExpr::AtLeast(k, children) => (3, *k as u64, children),
        PruneExpr::All(children) => (4, 0, children),
        PruneExpr::Any(children) => (5, 0, children),
    };
    let whole = children.iter().all(|child| put(child, nodes, names));
    let size = (nodes.len() - before + 1) as u32;
    nodes.push((kind + 256 * size, argument));
    whole && (kind <= 2 || size > 1)
}

/// The image of a rule: n, m, n tags, n arguments, m name bytes. None where the rule has no image.
pub fn encode(rule: &PruneExpr) -> Option<Vec<u8>> {
    let (mut nodes, mut names) = (Vec::new(), Vec::new());
    if !put(rule, &mut nodes, &mut names) || nodes.len() > MOST || names.len() > MOST || !names.is_ascii() {
        return None;
    }
    let mut bytes = Vec::with_capacity(4 + 12 * nodes.len() + names.len());
    bytes.extend_from_slice(&(nodes.len() as u16).to_le_bytes());
    bytes.extend_from_slice(&(names.len() as u16).to_le_bytes());
    for node in &nodes {
        bytes.extend_from_slice(&node.0.to_le_bytes());
    }
    for node in &nodes {
        bytes.extend_from_slice(&node.1.to_le_bytes());
    }
    bytes.extend_from_slice(&names);
    Some(bytes)
}

/// The number of `size` bytes at a position, little-endian.
fn number(bytes: &[u8], at: usize, size: usize) -> Option<u64> {
    let part = bytes.get(at..at + size)?;
    Some(part.iter().rev().fold(0, |sum, &byte| sum * 256 + u64::from(byte)))
}

/// The rule of the node at an index, whatever its bytes are; the image has `n` nodes.
fn node(bytes: &[u8], n: usize, index: usize) -> Option<PruneExpr> {
    let tag = number(bytes, 4 + 4 * index, 4)?;
    let argument = number(bytes, 4 + 4 * n + 8 * index, 8)?;
    let first = (index + 1).checked_sub((tag / 256) as usize)?;
    let (mut children, mut at) = (Vec::new(), index);
    while at > first {
        let size = (number(bytes, 4 + 4 * (at - 1), 4)? / 256) as usize;
        if size == 0 || size > at - first {
            return None;
        }
        children.push(node(bytes, n, at - 1)?);
        at -= size;
    }
    children.reverse();
    Some(match tag % 256 {
        0 => {
            let names = &bytes[4 + 12 * n..];
            let start = (argument / 65_536) as usize;
            let name = names.get(start..start.checked_add((argument % 65_536) as usize)?)?;
            PruneExpr::Remote(String::from_utf8(name.to_vec()).ok()?)
        }
        1 => PruneExpr::OlderThan(Duration::from_millis(argument)),
        2 => PruneExpr::Readable(argument as usize),
        3 => PruneExpr::AtLeast(argument as usize, children),
        4 => PruneExpr::All(children),
        5 => PruneExpr::Any(children),
        _ => return None,
    })
}

/// The rule whose image these bytes are: a rule is taken from them, and they must be its image. None means 16.
pub fn decode(bytes: &[u8]) -> Option<PruneExpr> {
    let n = number(bytes, 0, 2)? as usize;
    if n == 0 || bytes.len() < 4 + 12 * n {
        return None;
    }
    let rule = node(bytes, n, n - 1)?;
    (encode(&rule)? == bytes).then_some(rule)
}

/// A table of stores or a confirmed list, as the entries (mode, name) that make it.
pub fn table(entries: &[(u8, &str)]) -> Vec<u8> {
    let total: usize = entries.iter().map(|entry| entry.1.len()).sum();
    let mut bytes = Vec::with_capacity(4 + 2 * entries.len() + total);
    bytes.extend_from_slice(&(entries.len() as u16).to_le_bytes());
    bytes.extend_from_slice(&(total as u16).to_le_bytes());
    bytes.extend(entries.iter().map(|entry| entry.0));
    bytes.extend(entries.iter().map(|entry| entry.1.len() as u8));
    bytes.extend(entries.iter().flat_map(|entry| entry.1.bytes()));
    bytes
}

/// The entries of a table or a list whose modes are at most `most`. None where the bytes are not well-made (17, 19).
pub fn entries(bytes: &[u8], most: u8) -> Option<Vec<(u8, String)>> {
    let count = number(bytes, 0, 2)? as usize;
    let total = number(bytes, 2, 2)? as usize;
    if count > 64 || bytes.len() != 4 + 2 * count + total {
        return None;
    }
    let (modes, rest) = bytes[4..].split_at(count);
    let (sizes, mut names) = rest.split_at(count);
    let sum: usize = sizes.iter().map(|&size| usize::from(size)).sum();
    if modes.iter().any(|&mode| mode > most) || sum != total || names.iter().any(|&byte| byte >= 128) {
        return None;
    }
    let mut found = Vec::with_capacity(count);
    for (&mode, &size) in modes.iter().zip(sizes) {
        let (name, behind) = names.split_at(usize::from(size));
        found.push((mode, String::from_utf8(name.to_vec()).ok()?));
        names = behind;
    }
    Some(found)
}
