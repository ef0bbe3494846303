//! Lines drawn from a seed.

/// Numbers drawn from a seed (splitmix64).
pub struct Draw(u64);

impl Draw {
    pub fn new(seed: u64) -> Self {
        Self(seed)
    }

    /// A number below a bound.
    pub fn below(&mut self, bound: usize) -> usize {
        self.0 = self.0.wrapping_add(0x9e3779b97f4a7c15);
        let mut z = self.0;
        z = (z ^ (z >> 30)).wrapping_mul(0xbf58476d1ce4e5b9);
        z = (z ^ (z >> 27)).wrapping_mul(0x94d049bb133111eb);
        ((z ^ (z >> 31)) % bound as u64) as usize
    }

    /// One of some values.
    pub fn one<T: Copy>(&mut self, of: &[T]) -> T {
        of[self.below(of.len())]
    }

    /// A character, often one that a form gives a meaning.
    pub fn character(&mut self) -> char {
        match self.below(4) {
            0 => self.one(&[' ', '/', '\\', '-', '|']),
            1 => self.one(&['a', 'Z', '7', 'é', '\n', '\r', '\u{7f}', '\u{feff}']),
            2 => self.one(&['あ', 'ん', 'ア', 'ー', '・', '漢', '々', '￥', 'ﾟ', '１']),
            _ => self.one(&['b', 'か', '字', '𠀀', '😀', '\u{2ceaf}', '\u{2ceb0}', '\u{10ffff}']),
        }
    }

    /// A character behind a backslash where it is one of those, and now and then where it is not.
    pub fn escaped(&mut self, special: &str) -> String {
        let c = self.character();
        if special.contains(c) || self.below(12) == 0 {
            return format!("\\{c}");
        }
        c.to_string()
    }

    /// The tags of a character, escaped where it is one of those.
    pub fn tags(&mut self, special: &str) -> String {
        let columns = self.one(&[0, 0, 0, 1, 1, 2, 3]);
        (0..columns)
            .map(|_| {
                let length = self.below(4);
                format!("/{}", (0..length).map(|_| self.escaped(special)).collect::<String>())
            })
            .collect()
    }

    /// A line of the raw form.
    pub fn raw(&mut self) -> String {
        (0..1 + self.below(12)).map(|_| self.character()).collect()
    }

    /// A line of the tokenized form.
    pub fn tokenized(&mut self) -> String {
        let tokens: Vec<String> = (0..1 + self.below(4))
            .map(|_| {
                let length = 1 + self.below(3);
                let surface: String = (0..length).map(|_| self.escaped(" /\\")).collect();
                surface + &self.tags(" /\\")
            })
            .collect();
        tokens.join(" ")
    }

    /// A line of the partial form.
    pub fn partial(&mut self) -> String {
        let mut line = String::new();
        for i in 0..1 + self.below(7) {
            if i != 0 {
                line.push(self.one(&['-', '-', '|', '|', ' ']));
            }
            line.push(self.character());
            line.push_str(&self.tags(" -/\\|"));
        }
        line
    }

    /// A line with one to three of its bytes taken out, changed or put in.
    pub fn damaged(&mut self, line: &str) -> Vec<u8> {
        let mut bytes = line.as_bytes().to_vec();
        for _ in 0..1 + self.below(3) {
            let at = self.below(bytes.len() + 1);
            let byte = self.one(&[0, b' ', b'/', b'\\', b'-', b'|', b'a', 0x80, 0xbf, 0xc2, 0xe3, 0xed, 0xf0, 0xf4, 0xff]);
            match self.below(3) {
                0 => bytes.truncate(at),
                1 => bytes.insert(at, byte),
                _ if at < bytes.len() => bytes[at] = byte,
                _ => bytes.push(byte),
            }
        }
        bytes
    }
}
