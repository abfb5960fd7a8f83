//! The independent implementation agrees with the paper's Appendix B, and its inverse undoes its permutation. These tests need no
//! archive.
use reference::random::Random;
use reference::{appendix_b, invert, permute, state_bytes};

#[test]
fn appendix_b_forward_and_back() {
    for instance in 1..=3 {
        let states = appendix_b::states(instance);
        for pair in states.windows(2) {
            let mut state = pair[0].clone();
            permute(instance, &mut state);
            assert_eq!(state, pair[1], "instance {instance}");
            invert(instance, &mut state);
            assert_eq!(state, pair[0], "instance {instance}, back");
        }
    }
}

#[test]
fn appendix_b_is_whole() {
    let listed = [(1, 17, 17), (2, 11, 22), (3, 8, 32)];
    for (instance, states, bytes) in listed {
        let found = appendix_b::states(instance);
        assert_eq!(found.len(), states);
        assert!(found.iter().all(|state| state.len() == bytes && bytes == state_bytes(instance)));
    }
}

#[test]
fn inverse_undoes_permutation() {
    let mut random = Random::new(1);
    for instance in 1..=3 {
        for _ in 0..if cfg!(debug_assertions) { 50 } else { 5_000 } {
            let start = random.bytes(state_bytes(instance));
            let mut state = start.clone();
            permute(instance, &mut state);
            assert_ne!(state, start);
            invert(instance, &mut state);
            assert_eq!(state, start);
            invert(instance, &mut state);
            permute(instance, &mut state);
            assert_eq!(state, start);
        }
    }
}
