//! The peer with the same form: the cells at width 1, the words at the others.
use crate::{cells, words};

pub fn permute(instance: u32, width: u32, state: &mut [u8]) {
    match width {
        1 => cells::permute(instance, state),
        _ => words::permute(instance, width, state),
    }
}

pub fn invert(instance: u32, width: u32, state: &mut [u8]) {
    match width {
        1 => cells::invert(instance, state),
        _ => words::invert(instance, width, state),
    }
}

#[cfg(test)]
mod tests {
    use reference::random::Random;

    /// The peer does the same work: it agrees with the independent implementation.
    #[test]
    fn agrees_with_the_reference() {
        let mut random = Random::new(3);
        for (instance, width) in [(1, 1), (1, 8), (2, 1), (2, 8), (3, 1), (3, 8), (3, 16)] {
            for _ in 0..100 {
                let start = random.bytes(reference::state_bytes(instance));
                let (mut state, mut expected) = (start.clone(), start.clone());
                super::permute(instance, width, &mut state);
                reference::permute(instance, &mut expected);
                assert_eq!(state, expected, "permute, instance {instance}, width {width}");
                super::invert(instance, width, &mut state);
                assert_eq!(state, start, "invert, instance {instance}, width {width}");
            }
        }
    }
}
