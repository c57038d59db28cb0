//! Typed rows: texts that keep the rules, with spaces, large numbers and letters beyond the variables, what becomes of them by one change,
//! and texts of signs or bytes in any order.

use super::random::Random;

/// A text to be read as a row on so many variables.
pub struct Text {
    pub kind: &'static str,
    pub bytes: Vec<u8>,
    pub variables: u32,
}

/// What random texts and damage are made of: the signs, and a letter that is none.
const SIGNS: [&[u8]; 14] = [b"0", b"1", b"2147483647", b"2147483648", b"a", b"b", b"i", b"(", b")", b"+", b"-", b"*", b"<=", b" "];

/// Numbers that lead to the ends of s32, alone, in a sum or in a product, and numbers far outside.
const LARGE: &str = "2147483647 2147483648 2147483646 2147483649 0002147483647 1073741823 1073741824 1073741825 46340 46341 65535 65536 32768 \
                     4294967295 4294967296 9223372036854775808 18446744073709551616 99999999999999999999999999";

/// The examples of document 02 and of its readings, for two variables, with ; between them.
const EXAMPLES: &str = ";a;1 2;1< =2;1<2;(a<=1);a<=1<;a);();+a;2a;a2;ab;2(a);i;A;\t;\0;\u{80};a<=1;2147483648<=a;-2147483648<=a;\
                        0*2147483648<=a;a<=-2147483647-1;1+2147483647-1<=0;(a-a)*b<=1;2*a*3*b<=1;a*c<=1;a*b<=c;0*c<=1;2147483647*a<=-a;\
                        -1<=2147483647;a--b<=- -1;-(-2147483647-1)*0<=a";

/// The examples, and texts at the ends of the ranges.
pub fn fixed() -> Vec<Text> {
    let mut texts: Vec<(Vec<u8>, u32)> = EXAMPLES.split(';').map(|text| (text.into(), 2)).collect();
    for variables in [0, 1, 2, 7, 8, 9, 10, 255, 256, 257, 1 << 16, 1 << 31, u32::MAX] {
        texts.push((b"a<=1".to_vec(), variables));
        texts.push((b"h<=g".to_vec(), variables));
        texts.push((vec![b' '; 256], variables));
    }
    for length in [254, 255, 256, 257, 300, 40_000] {
        texts.extend(b"(1- )a\xff".map(|byte| (vec![byte; length], 2)));
        let row = |front: &str, middle: u8, back: &str| {
            [front.as_bytes(), &vec![middle; length - front.len() - back.len()], back.as_bytes()].concat()
        };
        texts.push((row("a<=1", b' ', ""), 2));
        texts.push((row("", b' ', "a<=1"), 2));
        texts.push((row("a<=", b'0', "7"), 2));
        texts.push((row("a<=", b'9', ""), 2));
        texts.push((row("", b'-', "a<=1"), 2));
    }
    for depth in [124, 125, 126, 127] {
        for sides in [("", "<=1"), ("1<=", ""), ("", "")] {
            texts.push((format!("{}{}a{}{}", sides.0, "(".repeat(depth), ")".repeat(depth), sides.1).into_bytes(), 1));
        }
    }
    texts.into_iter().map(|(bytes, variables)| Text { kind: "fixed", bytes, variables }).collect()
}

/// A byte for each sign, a letter beyond one variable, and a byte that is no sign.
const EACH_SIGN: &[u8; 12] = b" 1ab()+-*<=i";

/// Every text of up to five of these bytes, on one variable.
pub fn short() -> impl Iterator<Item = Text> {
    (0..=5).flat_map(|length| {
        (0..EACH_SIGN.len().pow(length)).map(move |number| {
            let digits = (0..length).map(|place| number / EACH_SIGN.len().pow(place) % EACH_SIGN.len());
            Text { kind: "up to five signs", bytes: digits.map(|digit| EACH_SIGN[digit]).collect(), variables: 1 }
        })
    })
}

pub fn random_text(random: &mut Random) -> Text {
    let variables = match random.below(16) {
        0 => random.below(11) as u32,
        1 => random.draw() as u32,
        _ => 1 + random.below(8) as u32,
    };
    let (kind, bytes) = match random.below(16) {
        0 | 1 => ("signs", random_signs(random)),
        2 => ("bytes", random_bytes(random)),
        3 | 4 => ("row about 255 bytes long", long_row(random, variables)),
        5 | 6 => ("row, cut", cut_row(random, variables)),
        7..10 => ("row, damaged", damaged_row(random, variables)),
        _ => ("row", random_row(random, variables)),
    };
    Text { kind, bytes, variables }
}

/// A row that keeps the rules, of any length.
fn random_row(random: &mut Random, variables: u32) -> Vec<u8> {
    let depth = 1 + random.below(4);
    row_of(random, variables, depth)
}

fn row_of(random: &mut Random, variables: u32, depth: usize) -> Vec<u8> {
    let mut typist = Typist::new(random, variables);
    typist.space();
    typist.expression(depth);
    typist.put(b"<=");
    typist.expression(depth);
    typist.bytes
}

fn cut_row(random: &mut Random, variables: u32) -> Vec<u8> {
    let mut bytes = random_row(random, variables);
    bytes.truncate(random.below(bytes.len()));
    bytes
}

fn damaged_row(random: &mut Random, variables: u32) -> Vec<u8> {
    let mut bytes = random_row(random, variables);
    for _ in 0..1 + random.below(2) {
        damage(random, &mut bytes);
    }
    bytes
}

/// One byte or sign is another, is missing, is there twice, or comes in.
fn damage(random: &mut Random, bytes: &mut Vec<u8>) {
    let place = random.below(bytes.len().max(1));
    let end = bytes.len().min(place + 1);
    match random.below(6) {
        0 => {
            let sign = bytes[place..end].repeat(2);
            bytes.splice(place..end, sign);
        }
        1 => {
            bytes.splice(place..end, [random.draw() as u8]);
        }
        2 => {
            bytes.splice(place..end, []);
        }
        3 => bytes[place..].rotate_left(end - place),
        4 => {
            bytes.splice(place..end, random.pick(&SIGNS).iter().copied());
        }
        _ => {
            bytes.splice(place..place, random.pick(&SIGNS).iter().copied());
        }
    }
}

fn random_signs(random: &mut Random) -> Vec<u8> {
    let count = if random.one_in(8) { random.below(300) } else { random.below(12) };
    (0..count).flat_map(|_| random.pick(&SIGNS).to_vec()).collect()
}

fn random_bytes(random: &mut Random) -> Vec<u8> {
    let start = *random.pick(&["", "a", "a<=", "a<=1", "(", "-2*"]);
    let length = if random.one_in(8) { random.below(400) } else { random.below(6) };
    let mut bytes = start.as_bytes().to_vec();
    bytes.extend((0..length).map(|_| random.draw() as u8));
    bytes
}

/// A row with 250 to 260 bytes: one that is long by itself, or a short one with spaces, zeros, minuses or brackets.
fn long_row(random: &mut Random, variables: u32) -> Vec<u8> {
    let length = 250 + random.below(11);
    let mut bytes = row_of(random, variables, 1);
    if random.one_in(3) {
        while bytes.len() < length {
            let more = row_of(random, variables, 2);
            let sign = *random.pick(b"+-*");
            let side = more.split(|&byte| byte == b'<').next().unwrap_or(&[]);
            bytes.push(sign);
            bytes.extend_from_slice(side);
        }
        if random.one_in(2) {
            bytes.truncate(length);
        }
        return bytes;
    }
    let missing = length.saturating_sub(bytes.len());
    match random.below(5) {
        0 => bytes.splice(..0, vec![b' '; missing]),
        1 => bytes.splice(bytes.len().., vec![b' '; missing]),
        2 => bytes.splice(..0, vec![b'-'; missing]),
        3 => bytes.splice(bytes.len().., [vec![b'+'], vec![b'0'; missing.saturating_sub(2)], vec![b'5']].concat()),
        _ => bytes.splice(bytes.len().., [vec![b'-'], vec![b'('; missing / 2], vec![b'1'], vec![b')'; missing / 2]].concat()),
    };
    bytes
}

/// Types a row sign by sign.
struct Typist<'r> {
    random: &'r mut Random,
    bytes: Vec<u8>,
    /// How many letters there are to choose from, mostly.
    letters: usize,
    /// One number in so many is large, one sign in so many has spaces after it.
    large: usize,
    spaces: usize,
}

impl<'r> Typist<'r> {
    fn new(random: &'r mut Random, variables: u32) -> Self {
        let (large, spaces) = (*random.pick(&[2, 5, 20, 1_000]), *random.pick(&[1, 3, 10, 1_000]));
        Typist { random, bytes: vec![], letters: variables.clamp(1, 8) as usize, large, spaces }
    }

    fn put(&mut self, sign: &[u8]) {
        self.bytes.extend_from_slice(sign);
        self.space();
    }

    fn space(&mut self) {
        if self.random.one_in(self.spaces) {
            let spaces = 1 + self.random.below(2);
            self.bytes.extend(vec![b' '; spaces]);
        }
    }

    fn expression(&mut self, depth: usize) {
        self.term(depth);
        for _ in 0..self.random.below(3) {
            let sign = *self.random.pick(&[b"+", b"-"]);
            self.put(sign);
            self.term(depth);
        }
    }

    /// A product mostly has one factor with letters at most.
    fn term(&mut self, depth: usize) {
        let count = [1, 1, 1, 2, 2, 3][self.random.below(6)];
        let with_letters = self.random.below(count);
        for i in 0..count {
            if i > 0 {
                self.put(b"*");
            }
            if i == with_letters || self.random.one_in(12) { self.factor(depth) } else { self.number_factor(depth) }
        }
    }

    fn factor(&mut self, depth: usize) {
        self.minuses();
        match self.random.below(6) {
            0 | 1 if depth > 0 => self.bracket(|typist| typist.expression(depth - 1)),
            0..=2 => self.number(),
            _ => self.letter(),
        }
    }

    /// A factor without letters; now and then with letters that go away.
    fn number_factor(&mut self, depth: usize) {
        self.minuses();
        if depth == 0 || !self.random.one_in(5) {
            return self.number();
        }
        let letter = [b'a' + self.random.below(self.letters) as u8];
        let goes_away = self.random.one_in(3);
        self.bracket(|typist| {
            typist.number_factor(depth - 1);
            if goes_away {
                typist.put(b"+");
                typist.put(&letter);
                typist.put(b"-");
                typist.put(&letter);
            } else {
                typist.put(b"-");
                typist.number_factor(depth - 1);
            }
        });
    }

    fn bracket(&mut self, inside: impl FnOnce(&mut Self)) {
        self.put(b"(");
        inside(self);
        self.put(b")");
    }

    fn minuses(&mut self) {
        while self.random.one_in(4) {
            self.put(b"-");
        }
    }

    fn letter(&mut self) {
        let most = if self.random.one_in(30) { 8 } else { self.letters };
        let letter = b'a' + self.random.below(most) as u8;
        self.put(&[letter]);
    }

    fn number(&mut self) {
        let number = match self.random.below(4) {
            _ if self.random.one_in(self.large) => self.random.pick(&LARGE.split(' ').collect::<Vec<_>>()).to_string(),
            0 => self.random.below(1_000).to_string(),
            1 => format!("{:02}", self.random.below(3)),
            _ => self.random.below(4).to_string(),
        };
        self.put(number.as_bytes());
    }
}
