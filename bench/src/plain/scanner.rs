//! A text read from the left, byte by byte.

pub struct Scanner<'t> {
    pub rest: &'t [u8],
}

impl Scanner<'_> {
    /// Takes a byte where it is next.
    pub fn byte(&mut self, byte: u8) -> bool {
        let found = self.rest.first() == Some(&byte);
        if found {
            self.rest = &self.rest[1..];
        }
        found
    }

    pub fn word_in_any_case(&mut self, word: &[u8]) -> bool {
        let found = self.rest.len() >= word.len() && self.rest[..word.len()].eq_ignore_ascii_case(word);
        if found {
            self.rest = &self.rest[word.len()..];
        }
        found
    }

    /// Takes one or more spaces.
    pub fn spaces(&mut self) -> Option<()> {
        let count = self.rest.iter().take_while(|&&byte| byte == b' ').count();
        self.rest = &self.rest[count..];
        (count > 0).then_some(())
    }

    /// Takes as many digits as there are, up to a bound. Answers their number and how many they were.
    pub fn digits(&mut self, most: usize) -> (u32, usize) {
        let mut number = 0;
        let mut count = 0;
        while count < most && self.rest.get(count).is_some_and(u8::is_ascii_digit) {
            number = number * 10 + (self.rest[count] - b'0') as u32;
            count += 1;
        }
        self.rest = &self.rest[count..];
        (number, count)
    }

    /// A number of at least so many digits and at most so many.
    pub fn number(&mut self, least: usize, most: usize) -> Option<u32> {
        let (number, count) = self.digits(most);
        (count >= least).then_some(number)
    }
}
