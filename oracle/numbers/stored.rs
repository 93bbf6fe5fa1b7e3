// The stored list: the requests in words, the vectors of UTF-8, the examples at the edges and what numbers alone can say, each from its file of sources.
use crate::{numbers, turned, Row};
use std::fs;

// The whole list in its order.
pub fn list(folder: &str) -> Result<Vec<Row>, String> {
    let path = |name: &str| format!("{folder}/{name}");
    let mut rows = requests(&path("requests.txt"), &path("answers.txt"), &path("by-hand.txt"))?;
    rows.extend(vectors(&path("vectors.txt"))?);
    rows.extend(edges(&path("edges.txt"))?);
    rows.extend(alone(&path("alone.txt"))?);
    Ok(rows)
}

fn text(path: &str) -> Result<String, String> {
    fs::read_to_string(path).map_err(|error| format!("{path}: {error}"))
}

// The lines of two files, as many in each, in pairs.
pub fn pairs(requests: &str, answers: &str) -> Result<Vec<(String, String)>, String> {
    let (asked, told) = (text(requests)?, text(answers)?);
    let (asked, told): (Vec<&str>, Vec<&str>) = (asked.lines().collect(), told.lines().collect());
    if asked.len() != told.len() {
        return Err(format!("{} requests, {} answers", asked.len(), told.len()));
    }
    let pair = |(request, answer): (&str, &str)| (request.to_string(), answer.to_string());
    Ok(asked.into_iter().zip(told).map(pair).collect())
}

// Requests in words with their answers. Those by hand stand in the same order: a row has the words, the request in numbers and its answer.
fn requests(requests: &str, answers: &str, by_hand: &str) -> Result<Vec<Row>, String> {
    let by_hand = split(by_hand)?;
    let mut rows = Vec::new();
    let mut taken = 0;
    for (request, answer) in pairs(requests, answers)? {
        match by_hand.get(taken).map(Vec::as_slice) {
            Some([words, asked, told]) if *words == request => {
                rows.push(Row { asked: asked.clone(), told: told.clone() });
                taken += 1;
            }
            _ => rows.extend(turned(&request, &answer)?),
        }
    }
    match by_hand.get(taken) {
        None => Ok(rows),
        Some(row) => Err(format!("by hand: not among the requests: {row:?}")),
    }
}

// Lines in numbers alone, each with its answer.
fn alone(path: &str) -> Result<Vec<Row>, String> {
    let row = |fields: Vec<String>| match fields.as_slice() {
        [asked, told] => Ok(Row { asked: asked.clone(), told: told.clone() }),
        _ => Err(format!("no line in numbers: {fields:?}")),
    };
    split(path)?.into_iter().map(row).collect()
}

// The lines of a file, each in its fields.
fn split(path: &str) -> Result<Vec<Vec<String>>, String> {
    let fields = |line: &str| line.split('|').map(str::to_string).collect();
    Ok(text(path)?.lines().map(fields).collect())
}

// Vectors, a line each: the bytes in capitals, then `good`, or `bad` and the place.
fn vectors(path: &str) -> Result<Vec<Row>, String> {
    let row = |line: &str| {
        let (bytes, found) = line.split_once(' ')?;
        let bytes = if bytes.is_empty() { "-".to_string() } else { bytes.to_lowercase() };
        protocol::hex(&bytes)?;
        let told = match found.strip_prefix("bad ") {
            Some(place) => numbers::refused(10, numbers::Carried::Amount(place.parse().ok()?), 0),
            None if found == "good" => numbers::accepted(0, &[]),
            None => return None,
        };
        Some(Row { asked: format!("check_utf8 {bytes}"), told: numbers::line(told) })
    };
    text(path)?.lines().map(|line| row(line).ok_or(format!("no vector: {line}"))).collect()
}

// Examples, a line each: the request in words, then its answer, in which brackets stand around what was not written by hand.
fn edges(path: &str) -> Result<Vec<Row>, String> {
    let mut rows = Vec::new();
    for line in text(path)?.lines() {
        let (request, answer) = line.split_once('|').ok_or(format!("no example: {line}"))?;
        rows.extend(turned(request, &answer.replace(['[', ']'], ""))?);
    }
    Ok(rows)
}
