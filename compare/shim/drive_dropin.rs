//! Asks the build that has Doorquill's file in place of the crate's own: section reading alone.
use crate::ghw::{common::GhwParseError, signals::read_signals};
use crate::{decode_info, header, Hierarchy};
use calls::{ask, Tables, What};

/// The calls that reached the encoder, their value bytes, and how it ended: well, or with a refusal in words. A panic or any other error is a fault.
pub struct Asked {
    pub calls: Vec<What>,
    pub values: Vec<u8>,
    pub end: Result<(), String>,
}

pub fn sections(tables: &Tables, big_endian: bool, mut bytes: &[u8]) -> Result<Asked, String> {
    let to = Hierarchy::default();
    let answer = ask(|| read_signals(&header(big_endian), decode_info(tables), &to, &mut bytes));
    let log = to.log.take();
    let end = match answer {
        Ok(Ok(_)) => Ok(()),
        Ok(Err(GhwParseError::FailedToParseSection("signal", words))) => Err(words),
        Ok(Err(other)) => return Err(format!("an error that is no refusal: {:?}", other)),
        Err(panic) => return Err(format!("a panic: {}", panic.message)),
    };
    Ok(Asked { calls: log.calls.iter().map(|call| call.what).collect(), values: log.values, end })
}
