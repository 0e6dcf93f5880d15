//! The file's bytes, as the top of main.rs describes them.

use crate::sample::Record;

pub fn bytes(records: &[Record]) -> Vec<u8> {
    let mut bytes = Vec::new();
    number(&mut bytes, records.len());
    for record in records {
        put(&mut bytes, record);
    }
    bytes
}

fn put(bytes: &mut Vec<u8>, record: &Record) {
    let request = &record.request;
    counted(bytes, &request.target);
    bytes.extend(request.kind.to_le_bytes());
    counted(bytes, &request.exons);
    bytes.extend(request.cds_start.to_le_bytes());
    bytes.extend(request.cds_end.to_le_bytes());
    bytes.extend(request.start.to_le_bytes());
    bytes.extend(request.end.to_le_bytes());
    bytes.extend(request.edit.to_le_bytes());
    counted(bytes, &request.alternative);
    bytes.extend(request.direction.to_le_bytes());
    bytes.extend(request.window.to_le_bytes());
    for expected in record.numbers {
        bytes.extend(expected.to_le_bytes());
    }
    counted(bytes, &record.reference);
    counted(bytes, &record.alternative);
}

fn number(bytes: &mut Vec<u8>, number: usize) {
    bytes.extend((number as u32).to_le_bytes());
}

fn counted(bytes: &mut Vec<u8>, part: &[u8]) {
    number(bytes, part.len());
    bytes.extend(part);
}
