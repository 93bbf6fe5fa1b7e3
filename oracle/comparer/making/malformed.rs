// Lines that are no requests.
pub fn all() -> Vec<String> {
    let lines = [
        "",
        "foo",
        "tag",
        "tag 0",
        "tag 0 0",
        "tag 0 zz",
        "tag x 00",
        "tag -1 00",
        "rbytes 3 0 00",
        "expect B 1 0 00",
        "expect A 16 0 00",
        "wtag A 16 0 0 8",
        "wbool 1 2 0 8",
        "wval Null 0 8",
        "wsim 1 256 0 8",
        "wpush 00 0",
        "wabt 2 7 4 0 3",
        "wabt 01 7 4 0 3",
        "wabt 1 7 4 0",
        "wabt 1 7 256 0 3",
        "wrej 256 9 0 3",
        "wrej 7 -9 0 3",
        "wrej 7 9 1 0 3",
        "werr 7 12 4294967296 0 0 12",
        "werr 7 12 0 4294967296 0 12",
        "werr 7 256 0 0 0 12",
        "werr 7 12 2 0 12",
    ];
    lines.iter().map(|line| line.to_string()).collect()
}
