// Long buffers and texts of a given size, in hexadecimal.

// A block of that size whose items are one-byte tags.
pub fn one_byte_tags(size: usize) -> String {
    format!("3e{}3f", "00".repeat(size - 2))
}

// A block of that size as ReadPropertyMultiple answers it: property and value, nine bytes each.
pub fn properties(size: usize) -> String {
    let (whole, rest) = ((size - 2) / 9, (size - 2) % 9);
    format!("1e{}{}1f", "29554e44429000004f".repeat(whole), "00".repeat(rest))
}

// A block of that size with one octet string.
pub fn octets(size: usize) -> String {
    format!("3e65fe{:04x}{}3f", size - 6, "5a".repeat(size - 6))
}

// A block of that size with blocks of its own number side by side, each with a one-byte tag.
pub fn blocks(size: usize) -> String {
    let (whole, rest) = ((size - 2) / 3, (size - 2) % 3);
    format!("3e{}{}3f", "3e003f".repeat(whole), "00".repeat(rest))
}

// The block without its last byte, so that it is not closed.
pub fn unclosed(block: String) -> String {
    block[..block.len() - 2].to_string()
}

// A text of letters of one byte.
pub fn plain_text(size: usize) -> String {
    "41".repeat(size)
}

// A text of that size in which every eighth letter or so has two bytes, as in German.
pub fn mixed_text(size: usize) -> String {
    let (whole, rest) = (size / 9, size % 9);
    format!("{}{}", "4b75686cc3bc6e6720".repeat(whole), "41".repeat(rest))
}

// A text of that size of letters of three bytes.
pub fn wide_text(size: usize) -> String {
    let (whole, rest) = (size / 3, size % 3);
    format!("{}{}", "e6b8a9".repeat(whole), "41".repeat(rest))
}

// A text whose last byte begins a letter that is not there.
pub fn broken(text: String) -> String {
    format!("{}c3", &text[..text.len() - 2])
}

// A value of a text or of octets in a buffer of that size, under the application tag of that number.
pub fn valued(tag: char, content: String) -> String {
    let size = content.len() / 2;
    format!("{tag}5fe{size:04x}{content}")
}
