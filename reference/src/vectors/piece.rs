//! A slice of bytes in a vector file: a pattern that is repeated, then changed at single places.

/// The bytes of one argument, in short form.
#[derive(Clone, Debug, PartialEq, Eq)]
pub struct Piece {
    length: usize,
    pattern: Vec<u8>,
    patches: Vec<Patch>,
}

/// One byte to be changed.
#[derive(Clone, Copy, Debug, PartialEq, Eq)]
pub struct Patch {
    pub offset: usize,
    pub value: u8,
}

impl Piece {
    /// These bytes as they are.
    pub fn literal(bytes: &[u8]) -> Piece {
        Piece::repeated(bytes, bytes.len())
    }

    /// A single byte.
    pub fn byte(byte: u8) -> Piece {
        Piece::literal(&[byte])
    }

    /// As many bytes as asked, the pattern over and over. A pattern is never longer than the piece.
    pub fn repeated(pattern: &[u8], length: usize) -> Piece {
        let kept = pattern.len().min(length);
        assert!(kept > 0 || length == 0, "a pattern for each byte");
        Piece {
            length,
            pattern: pattern[..kept].to_vec(),
            patches: Vec::new(),
        }
    }

    /// The same with one more byte changed.
    pub fn patched(mut self, offset: usize, value: u8) -> Piece {
        assert!(offset < self.length, "a patch lies inside");
        self.patches.push(Patch { offset, value });
        self
    }

    /// The same with consecutive bytes changed from an offset on.
    pub fn overwritten(self, offset: usize, bytes: &[u8]) -> Piece {
        let places = (offset..).zip(bytes);
        places.fold(self, |piece, (place, &byte)| piece.patched(place, byte))
    }

    /// These bytes by the pattern of a piece that they end with, patched wherever they differ from
    /// it; or as they are, if that is shorter.
    pub fn ending_with(bytes: &[u8], end: &Piece) -> Piece {
        let literal = Piece::literal(bytes);
        if end.length == 0 {
            return literal;
        }
        let mut pattern = end.pattern.clone();
        pattern.rotate_right((bytes.len() - end.length) % end.pattern.len());
        let repeated = Piece::repeated(&pattern, bytes.len());
        let expanded = repeated.expanded();
        let differ = (0..bytes.len()).filter(|&place| expanded[place] != bytes[place]);
        let patched = differ.fold(repeated, |piece, place| piece.patched(place, bytes[place]));
        if patched.size() < literal.size() {
            patched
        } else {
            literal
        }
    }

    /// The bytes from one place up to another, as a piece of its own.
    pub fn part(&self, start: usize, end: usize) -> Piece {
        let mut pattern = self.pattern.clone();
        pattern.rotate_left(start % self.pattern.len());
        let part = Piece::repeated(&pattern, end - start);
        let within = self.patches.iter();
        let within = within.filter(|patch| (start..end).contains(&patch.offset));
        within.fold(part, |part, patch| {
            part.patched(patch.offset - start, patch.value)
        })
    }

    pub fn length(&self) -> usize {
        self.length
    }

    /// The bytes it takes in a file, its three numbers aside.
    pub fn size(&self) -> usize {
        self.pattern.len() + 5 * self.patches.len()
    }

    /// The bytes meant.
    pub fn expanded(&self) -> Vec<u8> {
        let cycle = self.pattern.iter().copied().cycle();
        let mut bytes: Vec<u8> = cycle.take(self.length).collect();
        for patch in &self.patches {
            bytes[patch.offset] = patch.value;
        }
        bytes
    }

    /// Appends the piece to a file: three numbers, the pattern, the patches.
    pub fn encode(&self, file: &mut Vec<u8>) {
        encode_number(file, self.length);
        encode_number(file, self.pattern.len());
        encode_number(file, self.patches.len());
        file.extend(&self.pattern);
        for patch in &self.patches {
            encode_number(file, patch.offset);
            file.push(patch.value);
        }
    }
}

/// Four bytes, the lowest first.
pub fn encode_number(file: &mut Vec<u8>, number: usize) {
    let number = u32::try_from(number).expect("a number of a vector file fits 32 bits");
    file.extend(number.to_le_bytes());
}
