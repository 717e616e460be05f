//! For the worked examples: a frame as a whole and clocked.

use crate::*;

/// The answer and the reply, which both engines must give alike, and leave the same table.
pub fn sent(table: &mut [[u8; RECORD]], bytes: &[u8]) -> (u32, Vec<u8>) {
    let mut clocked = table.to_vec();
    let mut clock = Clock::new();
    let answered: Vec<u8> = bytes.iter().map(|&byte| (clock.byte(clocked.as_flattened(), byte) >> 8) as u8).collect();
    let released = clock.release(clocked.as_flattened_mut());

    let mut reply = vec![0; 8 * table.len()];
    let answer = frame(table.as_flattened_mut(), bytes, &mut reply);
    reply.truncate((answer >> 16) as usize);
    assert_eq!((released, &clocked[..]), (answer, &*table));
    assert!(answered[4..].starts_with(&reply));
    (answer, reply)
}
