//! Lent memory that is watched: it stands at an odd address amid bytes of a pattern, and is filled with the pattern itself, or for a part with weights.

use inputs::parts::Before;
use inputs::questions::{Memory, MEMORIES, WEIGHT_BYTES};

/// Bytes that are watched before the memory, and after its required part.
const BEFORE: usize = 33;
const AFTER: usize = 96;

/// One memory of which so many bytes are lent.
pub struct Watched {
    bytes: Vec<u8>,
    /// The required part as it was before the call, if it was not of the pattern.
    filled: Option<Vec<u8>>,
    required: usize,
    lent: usize,
    pattern: u8,
}

impl Watched {
    fn new(memory: Memory, lent: usize, pattern: u8) -> Watched {
        let required = memory.required();
        assert!(lent < required + AFTER);
        Watched {
            bytes: vec![pattern; BEFORE + required + AFTER],
            filled: None,
            required,
            lent,
            pattern,
        }
    }

    /// Fills the required part with an image of this length.
    fn fill(&mut self, image: Vec<u8>) {
        self.bytes[BEFORE..BEFORE + self.required].copy_from_slice(&image);
        self.filled = Some(image);
    }

    /// The bytes that a call is lent.
    pub fn lend(&mut self) -> &mut [u8] {
        &mut self.bytes[BEFORE..BEFORE + self.lent]
    }

    /// Changes a bit of the byte at an offset from the memory's start, lent or not.
    pub fn spoil(&mut self, offset: isize) {
        let at = BEFORE as isize + offset;
        self.bytes[at as usize] ^= 1;
    }

    /// The required part.
    pub fn part(&self) -> &[u8] {
        &self.bytes[BEFORE..BEFORE + self.required]
    }

    /// Whether no byte has changed.
    pub fn untouched(&self) -> bool {
        match &self.filled {
            None => self.all_pattern(&self.bytes),
            Some(image) => self.holds(image),
        }
    }

    /// Whether the required part has this image and then zeros, and no byte before or past it has changed.
    pub fn holds(&self, image: &[u8]) -> bool {
        let (before, rest) = self.bytes.split_at(BEFORE);
        let (part, past) = rest.split_at(self.required);
        let (filled, unused) = part.split_at(image.len());
        let around = self.all_pattern(before) && self.all_pattern(past);
        around && filled == image && unused.iter().all(|byte| *byte == 0)
    }

    fn all_pattern(&self, bytes: &[u8]) -> bool {
        bytes.iter().all(|byte| *byte == self.pattern)
    }
}

/// The three memories of a call; a call that is lent fewer has to leave the others alone.
pub struct Lent {
    pub rows: Watched,
    pub weights: Watched,
    pub text: Watched,
}

impl Lent {
    /// Memories of which so many bytes are lent, filled with a pattern.
    pub fn new(lent: [usize; 3], pattern: u8) -> Lent {
        let [rows, weights, text] = lent;
        Lent {
            rows: Watched::new(Memory::Rows, rows, pattern),
            weights: Watched::new(Memory::Weights, weights, pattern),
            text: Watched::new(Memory::Text, text, pattern),
        }
    }

    /// Memories that are just long enough.
    pub fn exact() -> Lent {
        Lent::new(MEMORIES.map(Memory::required), 0xA5)
    }

    /// The same, with the weights filled as they are to be lent to a part.
    pub fn with_weights(mut self, before: Before) -> Lent {
        let weights = before.weights(Memory::Weights.required() / WEIGHT_BYTES);
        self.weights.fill(weights_image(&weights));
        self
    }

    /// Lends only so many bytes of a memory.
    pub fn shorten(&mut self, memory: Memory, length: usize) {
        let of = match memory {
            Memory::Rows => &mut self.rows,
            Memory::Weights => &mut self.weights,
            Memory::Text => &mut self.text,
        };
        of.lent = length;
    }

    pub fn of(&self, memory: Memory) -> &Watched {
        match memory {
            Memory::Rows => &self.rows,
            Memory::Weights => &self.weights,
            Memory::Text => &self.text,
        }
    }

    /// Whether no byte of any memory has changed.
    pub fn untouched(&self) -> bool {
        MEMORIES.iter().all(|memory| self.of(*memory).untouched())
    }

    /// Whether the required parts of these memories are zero, and no other byte has changed.
    pub fn zero(&self, memories: &[Memory]) -> bool {
        let fits = |memory: &Memory| match memories.contains(memory) {
            true => self.of(*memory).holds(&[]),
            false => self.of(*memory).untouched(),
        };
        MEMORIES.iter().all(fits)
    }
}

/// Weights as docs/FORMATS.md has them.
pub fn weights_image(weights: &[u64]) -> Vec<u8> {
    let bytes = weights.iter().map(|weight| weight.to_be_bytes());
    bytes.flatten().collect()
}
