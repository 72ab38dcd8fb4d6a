//! Lines as they are written, and lines with something wrong in them.

use super::Maker;

impl Maker {
    /// Writes a line, or one that is nearly it.
    pub(super) fn line(&mut self, text: &str) {
        if self.bad > 0 && self.random.once_in(self.bad) {
            self.spoil(text);
            if self.random.flag() {
                return; // in its place
            }
        }
        match self.random.below(40) {
            0 => {
                let wide = text.replace(' ', "   ");
                self.out.extend_from_slice(wide.as_bytes());
            }
            1 => {
                self.out.extend_from_slice(b" \t");
                self.out.extend_from_slice(text.as_bytes());
                self.out.extend_from_slice(b"  ");
            }
            2 => {
                self.out.extend_from_slice(text.as_bytes());
                self.out.push(b'\r');
            }
            _ => self.out.extend_from_slice(text.as_bytes()),
        }
        self.out.push(b'\n');
        match self.random.below(200) {
            0 => self.out.push(b'\n'),
            1 => self.out.extend_from_slice(b"# a remark\n"),
            2 => self.out.extend_from_slice(b"   \t \n"),
            3 => self.out.extend_from_slice(b"  # another: run 5\n"),
            _ => {}
        }
    }

    /// A line with something wrong in it, or nearly so.
    fn spoil(&mut self, text: &str) {
        let r = &mut self.random;
        let mut words: Vec<Vec<u8>> = text
            .split_ascii_whitespace()
            .map(|word| word.as_bytes().to_vec())
            .collect();
        let at = r.between(0, words.len() - 1);
        match r.below(14) {
            0 => {
                words.remove(at);
            }
            1 => words.truncate(at),
            2 => {
                let again = words[at].clone();
                words.insert(at, again);
            }
            3 => {
                let odd =
                    r.one_of::<&str>(&["x", "-", "0", "late", "newest", "on", "1e3", "#", "back"]);
                words[at] = odd.as_bytes().to_vec();
            }
            4 => {
                let big = r.one_of::<&str>(&[
                    "65",
                    "64",
                    "63",
                    "256",
                    "4294967295",
                    "4294967296",
                    "1000001",
                    "18446744073709551615",
                    "18446744073709551616",
                    "281474976710656",
                    "99999999999999999999999999999999",
                    "-1",
                    "+1",
                    "0x10",
                    "1.5",
                    "1_000",
                    "",
                    "0000000000000000000000000000007",
                    "٣",
                ]);
                words[at] = big.as_bytes().to_vec();
            }
            5 => {
                words[at].pop();
            }
            6 => words[at].push(r.one_of(b"0f gZ")),
            7 => words[at] = words[at].to_ascii_uppercase(),
            8 => {
                let odd = r.byte();
                let place = r.between(0, words[at].len());
                if r.once_in(3) {
                    let blank = r.one_of::<&str>(&BLANKS);
                    words[at].splice(place..place, blank.bytes());
                } else if odd != b'\n' {
                    words[at].insert(place, odd);
                }
            }
            9 => {
                let length = r.between(1, 12);
                let junk = r.bytes(length);
                words[at] = junk.into_iter().filter(|&byte| byte != b'\n').collect();
            }
            10 => words.push(
                r.one_of::<&str>(&["1", "late", "late 2", "x", "#", "# 1"])
                    .as_bytes()
                    .to_vec(),
            ),
            11 => {
                let other = r.between(0, words.len() - 1);
                words.swap(at, other);
            }
            12 => {
                if words.len() > 1 {
                    words[0] = NAMED[r.between(0, NAMED.len() - 1)].as_bytes().to_vec();
                }
            }
            _ => {
                let length = r.between(0, 30);
                let junk = r.bytes(length);
                words = vec![junk.into_iter().filter(|&byte| byte != b'\n').collect()];
            }
        }
        self.out.extend_from_slice(&words.join(&b' '));
        self.out.push(b'\n');
    }
}

/// Blanks of many kinds, and what is nearly one.
const BLANKS: [&str; 12] = [
    " ", "\t", "\u{b}", "\u{c}", "\r", "\u{85}", "\u{a0}", "\u{1680}", "\u{2003}", "\u{3000}",
    "\u{200b}", "\u{feff}",
];

/// The words that begin a command.
const NAMED: [&str; 22] = [
    "scenario",
    "onu",
    "feeder",
    "fibre",
    "feederloss",
    "loss",
    "trip",
    "power",
    "signal",
    "cut",
    "mend",
    "show",
    "progress",
    "setup",
    "enter",
    "hold",
    "release",
    "look",
    "run",
    "send",
    "settle",
    "picture",
];
