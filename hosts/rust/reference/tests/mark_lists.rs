//! Lists of pieces, finishes, extra blocks, marks and returns: what each call answers, writes and hands back follows from the arguments
//! alone. The message, whether it is closed, and the extra blocks are kept beside the calls; a return takes them from what was kept when
//! the mark was set. These tests need no archive.
use reference::digest::{output, rate_bytes};
use reference::marks::{mark, recall};
use reference::pieces::{absorb, finish, init, squeeze, State};
use reference::random::Random;
use reference::state_bytes;

const NAMES: [[u8; 16]; 4] = [*b"after preamble 1", *b"after preamble 2", *b"before the end 1", [0; 16]];

/// A list's message, whether it is closed, and its extras.
#[derive(Clone)]
struct Message {
    bytes: Vec<u8>,
    bits: usize,
    closed: bool,
    extra: usize,
}

impl Message {
    /// Adds a bit to the message.
    fn push(&mut self, bit: u8) {
        if self.bits % 8 == 0 {
            self.bytes.push(0);
        }
        self.bytes[self.bits / 8] |= bit << (7 - self.bits % 8);
        self.bits += 1;
    }

    /// The state of an instance with this message and these extras, in as few calls as there can be.
    fn state(&self, instance: u32) -> State {
        let (_, fresh) = init(instance);
        let (number, mut state) = absorb(fresh, 8, &self.bytes, self.bits as u64);
        assert_eq!(number, 0);
        if self.closed {
            state = finish(state, 8, &mut vec![0; state_bytes(instance)]).1;
        }
        if self.extra > 0 {
            state = squeeze(state, 8, self.extra as u64, &mut vec![0; self.extra * rate_bytes(instance)]).1;
        }
        state
    }

    /// The bytes of the output from `from` to `to`, and the number of runs up to there.
    fn output(&self, instance: u32, from: usize, to: usize) -> (Vec<u8>, u64) {
        let whole = output(instance, &self.bytes, self.bits, to);
        (whole.bytes[from..].to_vec(), whole.runs)
    }
}

/// A list of calls, with its buffer of marks and their count.
struct List {
    instance: u32,
    state: State,
    buffer: Vec<u8>,
    count: usize,
    current: Message,
    saved: Vec<([u8; 16], Message)>,
}

impl List {
    /// The buffer starts with bytes that no call of the list wrote: sound marks of all the names, of another instance.
    fn new(instance: u32, length: usize) -> List {
        let (_, other) = init(instance % 3 + 1);
        let mut buffer = vec![0; length.next_multiple_of(64)];
        for (i, bytes) in buffer.chunks_mut(64).enumerate() {
            assert_eq!(mark(other, NAMES[i % 4], bytes, 0), Ok(1));
        }
        buffer.truncate(length);
        let current = Message { bytes: vec![], bits: 0, closed: false, extra: 0 };
        List { instance, state: init(instance).1, buffer, count: 0, current, saved: vec![] }
    }

    /// The first line of 3 and 4 that holds.
    fn first_line(&self, closed: bool, width: u32) -> u32 {
        match width {
            _ if self.current.closed != closed => 3,
            1 | 8 => 0,
            16 if self.instance == 3 => 0,
            _ => 4,
        }
    }

    /// Line 17 holds.
    fn wrong_buffer(&self) -> bool {
        self.buffer.len() > 64_000 || self.buffer.len() % 64 != 0
    }

    fn piece(&mut self, width: u32, bytes: &[u8], count: usize) -> u32 {
        let expected = match self.first_line(false, width) {
            0 if count > 8 * bytes.len() => 6,
            number => number,
        };
        let (number, after) = absorb(self.state, width, bytes, count as u64);
        assert_eq!(number, expected);
        self.state = after;
        if number == 0 {
            (0..count).for_each(|i| self.current.push(bytes[i / 8] >> (7 - i % 8) & 1));
        }
        number
    }

    fn finish(&mut self, width: u32, length: usize) -> u32 {
        let expected = match self.first_line(false, width) {
            0 if length != state_bytes(self.instance) => 5,
            number => number,
        };
        let mut bytes = vec![0xA5; length];
        let (number, after) = finish(self.state, width, &mut bytes);
        assert_eq!(number, expected);
        self.state = after;
        if number == 0 {
            self.current.closed = true;
            let (digest, runs) = self.current.output(self.instance, 0, length);
            assert_eq!((bytes, u64::from(after.runs)), (digest, runs));
        } else {
            assert_eq!(bytes, vec![0xA5; length]);
        }
        number
    }

    fn squeeze(&mut self, width: u32, count: usize, length: usize) -> u32 {
        let size = rate_bytes(self.instance);
        let expected = match self.first_line(true, width) {
            0 if length != count * size => 5,
            0 if count == 0 => 14,
            number => number,
        };
        let mut bytes = vec![0xA5; length];
        let (number, after) = squeeze(self.state, width, count as u64, &mut bytes);
        assert_eq!(number, expected);
        self.state = after;
        if number == 0 {
            let from = state_bytes(self.instance) + self.current.extra * size;
            let (blocks, runs) = self.current.output(self.instance, from, from + length);
            assert_eq!((bytes, u64::from(after.runs)), (blocks, runs));
            self.current.extra += count;
        } else {
            assert_eq!(bytes, vec![0xA5; length]);
        }
        number
    }

    /// The call hands back no state: the one before it counts.
    fn mark(&mut self, name: [u8; 16]) -> u32 {
        let expected = match self.buffer.len() / 64 {
            _ if self.wrong_buffer() => Err(17),
            capacity if self.saved.len() == capacity => Err(19),
            _ => Ok(self.saved.len() + 1),
        };
        let answer = mark(self.state, name, &mut self.buffer, self.count);
        assert_eq!(answer, expected);
        match answer {
            Ok(count) => {
                self.count = count;
                self.saved.push((name, self.current.clone()));
                0
            }
            Err(number) => number,
        }
    }

    fn recall(&mut self, name: [u8; 16]) -> u32 {
        let latest = self.saved.iter().rfind(|saved| saved.0 == name);
        let expected = match latest {
            _ if self.wrong_buffer() => 17,
            None => 18,
            Some((_, current)) => {
                self.current = current.clone();
                0
            }
        };
        let (number, after) = recall(self.state, name, &self.buffer, self.count);
        assert_eq!(number, expected);
        self.state = after;
        number
    }

    /// The next call, drawn at random: its kind, and the number that it answers.
    fn call(&mut self, random: &mut Random) -> (usize, u32) {
        let mut below = |bound: usize| (random.word() >> 8) as usize % bound;
        let kind = [0, 0, 0, 1, 2, 2, 3, 3, 4, 4][below(10)];
        let width = [1, 8, 8, 8, 16, 2][below(6)];
        let name = NAMES[below(4)];
        let (size, count, wrong) = (below(6), below(50), usize::from(below(6) == 0));
        let number = match kind {
            0 => {
                let bytes = random.bytes(size);
                self.piece(width, &bytes, count.min(8 * size + wrong))
            }
            1 => self.finish(width, state_bytes(self.instance) + wrong),
            2 => self.squeeze(width, size, size * rate_bytes(self.instance) + wrong),
            3 => self.mark(name),
            _ => self.recall(name),
        };
        (kind, number)
    }
}

/// The state after each call is that of the message and the extra blocks from a fresh one, and only marking writes the buffer.
#[test]
fn lists_of_calls() {
    let mut random = Random::new(25);
    let mut answers = [[0; 20]; 5];
    for round in 0..60 {
        for instance in 1..=3 {
            let length = [0, 64, 128, 192, 640, 64_000, 63, 65, 64_064][round % 9];
            let mut list = List::new(instance, length);
            for _ in 0..50 {
                let before = list.buffer.clone();
                let (kind, number) = list.call(&mut random);
                answers[kind][number as usize] += 1;
                assert_eq!(list.state, list.current.state(instance));
                assert_eq!(list.count, list.saved.len());
                let written = kind == 3 && number == 0;
                let from = if written { 64 * (list.count - 1) } else { length };
                assert_eq!(list.buffer[..from], before[..from]);
                let to = if written { 64 * list.count } else { length };
                assert_eq!(list.buffer[to..], before[to..]);
            }
        }
    }
    // these numbers came up, and no others; 7 and 15 need longer lists
    let expected: [&[usize]; 5] = [&[0, 3, 4, 6], &[0, 3, 4, 5], &[0, 3, 4, 5, 14], &[0, 17, 19], &[0, 17, 18]];
    for (counts, numbers) in answers.iter().zip(expected) {
        assert!((0..20).all(|number| (counts[number] > 0) == numbers.contains(&number)), "{counts:?}");
    }
}
