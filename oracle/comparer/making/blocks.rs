// Block tags in both forms.

// The opening of a number; from 15 on it has the long form alone.
pub fn opening(number: u8, long: bool) -> Vec<u8> {
    block_tag(0x0E, number, long)
}

// The closing of a number, likewise.
pub fn closing(number: u8, long: bool) -> Vec<u8> {
    block_tag(0x0F, number, long)
}

fn block_tag(low: u8, number: u8, long: bool) -> Vec<u8> {
    if long || number >= 15 {
        vec![0xF0 + low, number]
    } else {
        vec![number * 16 + low]
    }
}
