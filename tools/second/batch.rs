//! The batch format: each case is the line `case,BYTES,CELLS,ROOM`, then so many bytes of script, then byte 10.

use crate::run::Case;

const NEWLINE: u8 = 10;

pub fn write(case: &Case) -> Vec<u8> {
    let mut text = format!("case,{},{},{}\n", case.script.len(), case.cells, case.room).into_bytes();
    text.extend_from_slice(&case.script);
    text.push(NEWLINE);
    text
}

pub fn read(batch: &[u8]) -> Result<Vec<Case>, String> {
    let mut cases = Vec::new();
    let mut rest = batch;
    while !rest.is_empty() {
        let (case, after) =
            read_case(rest).map_err(|why| format!("case {} of the batch: {}\n", cases.len() + 1, why))?;
        cases.push(case);
        rest = after;
    }
    Ok(cases)
}

fn read_case(batch: &[u8]) -> Result<(Case, &[u8]), String> {
    let header_ends = batch.iter().position(|byte| *byte == NEWLINE).ok_or("its header has no end")?;
    let (bytes, cells, room) = read_header(&batch[..header_ends]).ok_or("its header is not case,BYTES,CELLS,ROOM")?;
    let body = &batch[header_ends + 1..];
    if body.get(bytes) != Some(&NEWLINE) {
        return Err("no byte 10 stands after its script".to_string());
    }
    Ok((Case { script: body[..bytes].to_vec(), cells, room }, &body[bytes + 1..]))
}

fn read_header(header: &[u8]) -> Option<(usize, usize, usize)> {
    let text = std::str::from_utf8(header).ok()?;
    let fields = text.strip_prefix("case,")?.split(',');
    let numbers: Vec<usize> = fields.map(|field| field.parse().ok()).collect::<Option<_>>()?;
    match numbers[..] {
        [bytes, cells, room] => Some((bytes, cells, room)),
        _ => None,
    }
}
