// Answers requests as document 01 asks for, one a line.
fn main() -> std::io::Result<()> {
    protocol::answer_all(reference::answer)
}
