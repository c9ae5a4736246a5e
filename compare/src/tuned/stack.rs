//! The stack of the parse: bytes in memory, and the top ones also in a register.
//!
//! A push stores eight bytes at once. Reading single bytes back soon after would wait for the
//! store, so a [`Top`] carries a window of the topmost symbols and reads memory only when the
//! window has run out.

/// Places below the bottom, so that eight bytes below any place can be read.
const BELOW: usize = 8;

/// The bytes of the stack, growing upward; END is at the bottom.
pub struct Stack {
    bytes: [u8; 520],
}

/// A place on the stack with the symbols from there downward. A copy walks down on its own.
#[derive(Clone, Copy)]
pub struct Top {
    at: usize,
    /// The symbol at the place in the lowest byte, the ones below it above.
    window: u64,
    /// How many symbols of the window are good, 1 to 8.
    held: u32,
}

impl Stack {
    /// START over END.
    pub fn new() -> (Stack, Top) {
        let mut stack = Stack { bytes: [0; 520] };
        stack.bytes[BELOW + 1] = 64;
        let top = Top {
            at: BELOW + 1,
            window: 64,
            held: 2,
        };
        (stack, top)
    }

    /// The eight symbols from a place downward, zeros below the bottom.
    #[inline(always)]
    fn window(&self, at: usize) -> u64 {
        let below = (at & 511).saturating_sub(7);
        let bytes = self.bytes[below..below + 8].first_chunk::<8>();
        u64::from_be_bytes(*bytes.expect("eight bytes"))
    }

    /// Puts symbols in place of the top: the same ones in the order of memory and as a
    /// window, `8 * count` bits of it.
    #[inline(always)]
    pub fn replace(&mut self, top: &mut Top, memory: u64, window: u64, bits: u32) {
        let at = top.at & 511;
        self.bytes[at..at + 8].copy_from_slice(&memory.to_le_bytes());
        let count = bits / 8;
        top.at = at + count as usize - 1;
        top.window = (top.window >> 8) << bits | window;
        top.held = top.held - 1 + count;
        if top.held == 0 {
            *top = self.at(top.at);
        } else if top.held > 8 {
            top.held = 8;
        }
    }

    /// Puts a packed right side in place of the top.
    pub fn push(&mut self, top: &mut Top, right: u64, length: u8) {
        let at = top.at;
        self.bytes[at..at + 8].copy_from_slice(&right.to_le_bytes());
        *top = self.at(at + usize::from(length) - 1);
    }

    /// The place `at`, with its window from memory.
    #[inline(always)]
    fn at(&self, at: usize) -> Top {
        Top {
            at,
            window: self.window(at),
            held: 8,
        }
    }
}

impl Top {
    #[inline(always)]
    pub fn symbol(&self) -> usize {
        self.window as usize & 127
    }

    /// How many symbols stand on the stack up to this place, END counted.
    #[inline(always)]
    pub fn height(&self) -> usize {
        self.at + 1 - BELOW
    }

    /// One place down.
    #[inline(always)]
    pub fn down(&mut self, stack: &Stack) {
        self.at -= 1;
        self.window >>= 8;
        self.held -= 1;
        if self.held == 0 {
            *self = stack.at(self.at);
        }
    }
}
