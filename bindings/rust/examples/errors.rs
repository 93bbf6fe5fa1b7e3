//! Reads what five boards answered to a ReadProperty request: one with the value, three with an error, a reject and an abort, and one with an error that was cut.
use thaolisem::*;

/// The answers, each with the invoke id of the request to that board.
#[rustfmt::skip]
const ANSWERS: [&[u8]; 5] = [
    // the second frame of samples/frames.txt
    &[0x30, 0x01, 0x0C, 0x0C, 0x00, 0x80, 0x00, 0x05, 0x19, 0x55, 0x3E, 0x44, 0x42, 0x90, 0x00, 0x00, 0x3F],
    // class property, code unknown-property
    &[0x50, 0x02, 0x0C, 0x91, 0x02, 0x91, 0x20],
    // reason unrecognized-service
    &[0x60, 0x03, 0x09],
    // reason segmentation-not-supported
    &[0x71, 0x04, 0x04],
    // as the second, without the code's content
    &[0x50, 0x05, 0x0C, 0x91, 0x02, 0x91],
];

/// What a frame is, by the name of its kind and its numbers.
fn told(frame: &[u8]) -> Result<String, Refusal> {
    Ok(match Header::decode(&mut Reader::default(), frame)? {
        Header::ComplexAck(ComplexAck { invoke_id, service_choice }) => {
            let choice = service_choice as u8;
            format!("complex acknowledgement, invoke id {invoke_id}, choice {choice}")
        }
        Header::ConfirmedBacnetError(error) => {
            let (id, choice) = (error.invoke_id, error.service_choice as u8);
            let (class, code) = (error.error_class, error.error_code);
            format!("error, invoke id {id}, choice {choice}, class {class}, code {code}")
        }
        Header::Reject(Reject { invoke_id, reason }) => {
            format!("reject, invoke id {invoke_id}, reason {reason}")
        }
        Header::Abort(Abort { server, invoke_id, reason }) => {
            let side = if server { "server" } else { "client" };
            format!("abort by the {side}, invoke id {invoke_id}, reason {reason}")
        }
        _ => "not what was asked for".to_string(),
    })
}

fn main() {
    for (number, frame) in ANSWERS.iter().enumerate() {
        match told(frame) {
            Ok(told) => println!("board {}: {told}", number + 1),
            Err(refusal) => println!("board {}: unreadable, ask again: {refusal}", number + 1),
        }
    }
}
