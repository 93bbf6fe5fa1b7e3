// The UTF-8 check.
use super::{input, Beside, Input};
use crate::buffers::{broken, mixed_text, plain_text, wide_text};

pub fn all() -> Vec<Input> {
    let mut texts = vec![
        ("empty".to_string(), "-".to_string()),
        ("5".to_string(), plain_text(5)),
        ("name-16".to_string(), "5a6f6e652074656d7065726174757265".to_string()),
    ];
    for size in [100, 1_000, 1_476, 10_000, 65_535] {
        texts.push((format!("plain-{size}"), plain_text(size)));
        texts.push((format!("mixed-{size}"), mixed_text(size)));
        texts.push((format!("wide-{size}"), wide_text(size)));
    }
    texts.push(("broken-1476".to_string(), broken(plain_text(1_476))));
    texts.push(("broken-first".to_string(), "ff41424344".to_string()));
    let utf8 = |(name, text): (String, String)| {
        input("utf8", &name, Beside::Same, format!("utf8 0 {text}"))
    };
    texts.into_iter().map(utf8).collect()
}
