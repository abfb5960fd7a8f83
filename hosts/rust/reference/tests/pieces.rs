//! The independent pieces give the independent whole digest, however a message is cut, and sound states. These tests need no archive.
use reference::digest::digest;
use reference::pieces::{absorb, finish, init};
use reference::random::Random;
use reference::state_bytes;

#[test]
fn pieces_give_the_whole_digest() {
    let mut random = Random::new(3);
    let message = random.bytes(40);
    for instance in 1..=3 {
        for bits in (0..=64).chain([100, 255, 256, 257, 319, 320]) {
            let whole = digest(instance, &message, bits);
            let (number, mut state) = init(instance);
            assert_eq!(number, 0);
            let mut taken = 0;
            while taken < bits {
                let count = (random.word() as usize % 13).min(bits - taken);
                // the piece starts at bit `taken`; what stands after its bits is ignored
                let mut piece = vec![0xFF; 2];
                for i in 0..count {
                    let bit = message[(taken + i) / 8] >> (7 - (taken + i) % 8) & 1;
                    piece[i / 8] ^= (1 ^ bit) << (7 - i % 8);
                }
                let (number, after) = absorb(state, 8, &piece, count as u64);
                assert_eq!(number, 0);
                state = after;
                taken += count;
            }
            let mut bytes = vec![0; state_bytes(instance)];
            let (number, closed) = finish(state, 1, &mut bytes);
            assert_eq!((number, closed.phase, closed.total), (0, 1, bits as u32));
            assert_eq!((bytes, u64::from(closed.runs)), (whole.bytes, whole.runs));
            // a closed state is sound: line 3 refuses it, and not line 2
            assert_eq!(absorb(closed, 8, &[], 0), (3, closed));
        }
    }
}
