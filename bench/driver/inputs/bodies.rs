// Bodies and the strict walk.
use super::{input, Beside, Input};
use crate::buffers::{blocks, octets, one_byte_tags, properties, unclosed};

// The sizes at which growth is looked at.
const SIZES: [usize; 5] = [100, 1_000, 1_476, 10_000, 65_535];

pub fn all() -> Vec<Input> {
    let buffers = buffers();
    let body = |(name, place, buf): &(String, usize, String)| {
        input("body", name, Beside::Same, format!("body 65535 {place} {buf}"))
    };
    let walk = |(name, place, buf): &(String, usize, String)| {
        input("walk", name, Beside::Alone, format!("walk {place} {buf}"))
    };
    let expected = [
        ("answer", "bodyfor 3 65535 10 30010c0c0080000519553e44429000003f"),
        ("other-number", "bodyfor 2 65535 10 30010c0c0080000519553e44429000003f"),
    ];
    // there, another tag in its place, the buffer's end, and cut
    let optional = [
        ("answer", "opt 3 65535 10 30010c0c0080000519553e44429000003f"),
        ("other-tag", "opt 3 65535 8 30010c0c0080000519553e44429000003f"),
        ("end", "opt 3 65535 17 30010c0c0080000519553e44429000003f"),
        ("cut", "opt 3 65535 0 3e4442"),
    ];
    let mut inputs: Vec<Input> = buffers.iter().map(body).collect();
    inputs.extend(
        expected.map(|(name, line)| input("body-for-tag", name, Beside::Same, line.to_string())),
    );
    inputs.extend(
        optional.map(|(name, line)| input("optional-body", name, Beside::Alone, line.to_string())),
    );
    inputs.extend(buffers.iter().map(walk));
    inputs
}

// Names, places and buffers.
fn buffers() -> Vec<(String, usize, String)> {
    let mut buffers = vec![
        ("short".to_string(), 0, "3e21073f".to_string()),
        ("answer".to_string(), 10, "30010c0c0080000519553e44429000003f".to_string()),
    ];
    for size in SIZES {
        buffers.push((format!("tags-{size}"), 0, one_byte_tags(size)));
        buffers.push((format!("properties-{size}"), 0, properties(size)));
    }
    for size in [1_476, 65_535] {
        buffers.push((format!("blocks-{size}"), 0, blocks(size)));
        buffers.push((format!("octets-{size}"), 0, octets(size)));
        buffers.push((format!("unclosed-{size}"), 0, unclosed(properties(size + 1))));
    }
    buffers.push(("no-opening".to_string(), 0, "0c00800005".to_string()));
    buffers.push(("cut".to_string(), 0, "3e4442".to_string()));
    buffers
}
