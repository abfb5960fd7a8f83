// Digests a message, seals two records and checks their journal; then changes a byte of the second and sees it refused.
use wilbroged::{digest, seal, verify, Refused, BODY_BYTES, RECORD_BYTES, S, SEAL_BYTES, S_BYTES, S_WIDTH};

fn run() -> Result<(), Refused> {
    let message = b"lamp";
    let mut bytes = [0; S_BYTES];
    digest(S, S_WIDTH, message, 8 * message.len() as u64, &mut bytes)?;
    println!("S-QUARK of lamp: {bytes:02X?}");

    let key = *b"lighthouse key 1";
    let mut body = [0; BODY_BYTES];
    body[12] = 1; // lit,
    body[13] = 2; // the lamp at position 2
    let mut journal = [0; 2 * RECORD_BYTES];
    let mut previous = [0; SEAL_BYTES]; // zeros before the first record
    for (sequence, record) in (1u32..).zip(journal.chunks_mut(RECORD_BYTES)) {
        body[4..8].copy_from_slice(&sequence.to_be_bytes());
        seal(&key, &previous, &body, record)?;
        previous.copy_from_slice(&record[BODY_BYTES..]);
    }
    verify(&key, &journal)?;

    journal[RECORD_BYTES + 14] ^= 1; // the second record's current
    let refused = verify(&key, &journal).expect_err("a changed record is refused");
    assert_eq!(refused, Refused { number: Refused::DIFFERENT_SEAL, place: Some(1) });
    println!("{refused}");
    Ok(())
}

fn main() {
    if let Err(refused) = run() {
        eprintln!("{refused}");
        std::process::exit(1);
    }
}
