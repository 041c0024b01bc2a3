// The listing of one log: a header line, and a line for each accepted block on the walk.
use super::block::{check, check_log, inverted, BLOCK};
use super::record::read;
use super::Refusal;

pub fn list(log: &[u8]) -> Result<Vec<u8>, Refusal> {
    check_log(log)?;
    let mut text = String::from("place\tid\tcount\tpolarity\n");
    let mut p = 0;
    while log.len() - p >= BLOCK {
        if check(log, p).is_ok() {
            text += &line(log, p);
            p += 300;
        } else {
            p += 1;
        }
    }
    Ok(text.into_bytes())
}

fn line(log: &[u8], p: usize) -> String {
    let (_, values) = read(log, p).expect("the block was accepted");
    let inverted = inverted(log, p).expect("the block was accepted");
    let polarity = if inverted { 'I' } else { 'U' };
    format!("{p}\t{}\t{}\t{polarity}\n", values[5], values[2])
}
