// Scripts that are no request: a call that cannot be read, or something left over.
use crate::making::segments::frame::script;

// These, and beside them as many calls as a script may have and one more.
pub fn all() -> Vec<String> {
    let lines = [
        "segments",
        "segments ",
        "segments -",
        "segments 70001",
        "segments 18446744073709551616",
        "segments -1 ; take -",
        "segments 4 ",
        "segments 4 ;",
        "segments 4 ; ",
        "segments 4 take -",
        "segments 4 ; take - ;",
        "segments 4 ; take - take -",
        "segments 4 ; take - -",
        "segments 4 ; take",
        "segments 4 ; take ; take -",
        "segments 4 ; take 3",
        "segments 4 ; take 3C0100040C",
        "segments 4 ; take -; take -",
        "segments 4 ;  take -",
        "segments 4 ;; take -",
        "segments 4 ; ; take -",
        "segments ; take -",
        "segments 4 ; lend",
        "segments 4 ; lend 5",
        "segments 4 ; lend -",
        "segments 4 ; lend -0",
        "segments 4 ; lend 4 4",
        "segments 4 ; take 380100040c01 ; lend 18446744073709551616",
        "segments 4 ; give 380100040c01",
        "segments 4 ; Take 380100040c01",
        "segments 4 0 ; take -",
        "segment 4 ; take -",
    ];
    let mut lines: Vec<String> = lines.iter().map(|line| line.to_string()).collect();
    lines.push(script(0, &vec!["lend 0".to_string(); 400]));
    lines.push(script(0, &vec!["lend 0".to_string(); 401]));
    lines
}
