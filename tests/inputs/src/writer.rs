//! Writing the fields of a case or a book, and bytes as hexadecimal text.

use second::reader::{COUPLE_TAG, HEAD_TAG, STATION_TAG, TABLE_TAG, TRACK_TAG, TRAIN_TAG};

/// A field: one byte tag, two bytes length, body.
pub fn field(tag: u8, body: &[u8]) -> Vec<u8> {
    let mut bytes = vec![tag];
    bytes.extend_from_slice(&(body.len() as u16).to_be_bytes());
    bytes.extend_from_slice(body);
    bytes
}

/// A head: last minute, safety time, room.
pub fn head(last_minute: u16, safety: u8, room: u16) -> Vec<u8> {
    let mut body = last_minute.to_be_bytes().to_vec();
    body.push(safety);
    body.extend_from_slice(&room.to_be_bytes());
    field(HEAD_TAG, &body)
}

/// A station with its capacity.
pub fn station(capacity: u8) -> Vec<u8> {
    field(STATION_TAG, &[capacity])
}

/// A track from one station to another with its capacity.
pub fn track(from: u8, to: u8, capacity: u8) -> Vec<u8> {
    field(TRACK_TAG, &[from, to, capacity])
}

/// A train with its stops: station, arrival, departure.
pub fn train(priority: u8, train_type: u8, stops: &[(u8, u16, u16)]) -> Vec<u8> {
    let mut body = vec![priority, train_type];
    for (station, arrival, departure) in stops {
        body.push(*station);
        body.extend_from_slice(&arrival.to_be_bytes());
        body.extend_from_slice(&departure.to_be_bytes());
    }
    field(TRAIN_TAG, &body)
}

/// A delay table with its pairs: delay, weight.
pub fn table(train_type: u8, pairs: &[(u8, u8)]) -> Vec<u8> {
    let mut body = vec![train_type];
    for (delay, weight) in pairs {
        body.extend_from_slice(&[*delay, *weight]);
    }
    field(TABLE_TAG, &body)
}

/// A couple of two tracks.
pub fn couple(one: u8, other: u8) -> Vec<u8> {
    field(COUPLE_TAG, &[one, other])
}

/// Bytes as lowercase hexadecimal text without spaces.
pub fn to_hex(bytes: &[u8]) -> String {
    bytes.iter().map(|byte| format!("{byte:02x}")).collect()
}

/// Bytes from hexadecimal text; white space is passed over.
pub fn from_hex(text: &str) -> Vec<u8> {
    let digits: Vec<u8> = text
        .chars()
        .filter_map(|letter| letter.to_digit(16))
        .map(|digit| digit as u8)
        .collect();
    digits
        .chunks(2)
        .map(|pair| pair[0] * 16 + pair[1])
        .collect()
}
