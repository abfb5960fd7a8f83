//! Some of P's steps, and their undoing, from document 02 (2.6) and document 01 ("Steps, permutation and inverse"). The registers are lists
//! of bits, and each step moves all of them. A call answers the number of the first line of docs/RULES.md that holds, or what it hands
//! back.
use crate::permutation::{bit, f, g, Instance, D, S, U};
use crate::pieces::{is_instance, is_width};
use crate::state_bytes;

/// The greatest value of L, which is all ones: P's own start.
const ALL_ONES: u32 = 1_023;

/// 4b, the steps of P.
fn steps_of_p(instance: u32) -> u32 {
    4 * 8 * state_bytes(instance) as u32
}

/// f + h and g + h of an instance, where L's first bit is `l0`.
fn sums(instance: u32, x: &[u8], y: &[u8], l0: u8) -> (u8, u8) {
    fn of<I: Instance>(x: &[u8], y: &[u8], l0: u8) -> (u8, u8) {
        let h = I::h(x, y, l0);
        (f::<I>(x) ^ h, g::<I>(y) ^ h)
    }
    match instance {
        1 => of::<U>(x, y, l0),
        2 => of::<D>(x, y, l0),
        3 => of::<S>(x, y, l0),
        _ => panic!("no instance {instance}"),
    }
}

/// A register drops bit 0, moves down one and gains a last bit.
fn gain(register: &mut Vec<u8>, last: u8) {
    register.remove(0);
    register.push(last);
}

/// A register loses its last bit, which is answered, and moves up one; its bit 0 is 0 then.
fn lose(register: &mut Vec<u8>) -> u8 {
    register.insert(0, 0);
    register.pop().unwrap()
}

/// The registers of an instance, bit 0 first.
struct Registers {
    instance: u32,
    x: Vec<u8>,
    y: Vec<u8>,
    l: Vec<u8>,
}

impl Registers {
    /// The state's first half in X and its second in Y. In `l` bit 0 of L has weight 512, and bit 9 weight 1.
    fn load(instance: u32, l: u32, state: &[u8]) -> Registers {
        let half = 4 * state.len();
        Registers {
            instance,
            x: (0..half).map(|i| bit(state, i)).collect(),
            y: (half..2 * half).map(|i| bit(state, i)).collect(),
            l: (0..10).map(|i| (l >> (9 - i) & 1) as u8).collect(),
        }
    }

    /// X, then Y, in byte form.
    fn state(&self) -> Vec<u8> {
        let bits = [&self.x[..], &self.y].concat();
        bits.chunks(8).map(|byte| byte.iter().fold(0, |sum, bit| 2 * sum + bit)).collect()
    }

    /// L's value, by the weights that it is loaded with.
    fn l(&self) -> u32 {
        self.l.iter().fold(0, |sum, &bit| 2 * sum + u32::from(bit))
    }

    /// L gains L0 + L3.
    fn step_l(&mut self) {
        let last = self.l[0] ^ self.l[3];
        gain(&mut self.l, last);
    }

    /// One step: X gains Y0 + f + h and Y gains g + h, from the old bits.
    fn step(&mut self) {
        let (f_and_h, g_and_h) = sums(self.instance, &self.x, &self.y, self.l[0]);
        let y0 = self.y[0];
        gain(&mut self.x, y0 ^ f_and_h);
        gain(&mut self.y, g_and_h);
        self.step_l();
    }

    /// Undoes one step. L3 is back in its place when L0 is worked out. With 0 in place of X0 and Y0, f and g lack just these bits: they are
    /// added in them and stand in no product. h reads neither.
    fn undo(&mut self) {
        let (gained_x, gained_y, gained_l) = (lose(&mut self.x), lose(&mut self.y), lose(&mut self.l));
        self.l[0] = gained_l ^ self.l[3];
        let (f_and_h, g_and_h) = sums(self.instance, &self.x, &self.y, self.l[0]);
        self.y[0] = gained_y ^ g_and_h;
        self.x[0] = gained_x ^ self.y[0] ^ f_and_h;
    }
}

/// The first of lines 1, 4, 20 and 5 that holds, as an error.
fn first_line(instance: u32, width: u32, l: u32, count: u32, length: usize) -> Result<(), u32> {
    match instance {
        _ if !is_instance(instance) => Err(1),
        _ if !is_width(instance, width) => Err(4),
        _ if l > ALL_ONES || count > steps_of_p(instance) || count % width != 0 => Err(20),
        _ if length != state_bytes(instance) => Err(5),
        _ => Ok(()),
    }
}

/// Takes `count` steps from the value `l` of L: the state after them is in the buffer, and L's value after them is answered.
pub fn steps(instance: u32, width: u32, l: u32, count: u32, state: &mut [u8]) -> Result<u32, u32> {
    first_line(instance, width, l, count, state.len())?;
    let mut registers = Registers::load(instance, l, state);
    for _ in 0..count {
        registers.step();
    }
    state.copy_from_slice(&registers.state());
    Ok(registers.l())
}

/// Undoes `count` steps, before which L has the value `l`: the state from before them is in the buffer. L goes forward alone first.
pub fn steps_back(instance: u32, width: u32, l: u32, count: u32, state: &mut [u8]) -> Result<(), u32> {
    first_line(instance, width, l, count, state.len())?;
    let mut registers = Registers::load(instance, l, state);
    for _ in 0..count {
        registers.step_l();
    }
    for _ in 0..count {
        registers.undo();
    }
    assert_eq!(registers.l(), l);
    state.copy_from_slice(&registers.state());
    Ok(())
}

/// The state and L's value at each clock of one pass, from 0 to 4b.
pub fn clocks(instance: u32, l: u32, state: &[u8]) -> Vec<(Vec<u8>, u32)> {
    assert!(l <= ALL_ONES);
    assert_eq!(state.len(), state_bytes(instance));
    let mut registers = Registers::load(instance, l, state);
    let mut clocks = vec![(registers.state(), registers.l())];
    for _ in 0..steps_of_p(instance) {
        registers.step();
        clocks.push((registers.state(), registers.l()));
    }
    clocks
}
