//! Texts of URIs, part by part.

use super::words::Pool;
use super::Random;

/// Bytes of a text "without "@"" that does not end the authority.
const USER_BYTES: &[u8] = b"uU0.:;=%-_[]!$&'()*+,\\^ \t\0\x7F";
/// Bytes behind the authority.
const TAIL_BYTES: &[u8] = b"xX0.:;=%@/?#-_[]\\ \0\x7F";
/// Longest part, so that most URIs fit into a SAN.
const LONGEST_PART: usize = 3000;

impl Pool {
    /// A URI with or without a user part, a port and a tail; in one of four at
    /// most one of these parts may be long.
    pub fn uri_id(&self, random: &mut Random) -> Vec<u8> {
        let long = random.below(12);
        [
            self.scheme(random),
            b"://".to_vec(),
            user(random, long == 0),
            self.domain(random),
            port(random, long == 1),
            tail(random, long == 2),
        ]
        .concat()
    }

    /// A URI whose shape is wrong in one place.
    pub fn crooked_uri(&self, random: &mut Random) -> Vec<u8> {
        let (before, behind) = match random.below(6) {
            0 => (two_users(random), Vec::new()),
            1 => (b"://".to_vec(), crooked_port(random)),
            _ => crooked_marks(random),
        };
        [self.scheme(random), before, self.dns_id(random), behind].concat()
    }
}

/// Wrong marks before the domain, behind it, or both.
fn crooked_marks(random: &mut Random) -> (Vec<u8>, Vec<u8>) {
    const BEFORE: [&str; 9] = [
        "://", ":/", "//", ":", ":///", ";//", "://@@", "://u@v@", "://:",
    ];
    const BEHIND: [&str; 12] = [
        "", ":8a", ":80:80", ":-1", ":80@", "@", ". ", ":\0", "\\", "\\x/", ".7", ".7:7",
    ];
    let mut mark = |marks: &[&str]| random.pick(marks).bytes().collect();
    (mark(&BEFORE), mark(&BEHIND))
}

/// A user part with an "@" in it, perhaps far behind.
fn two_users(random: &mut Random) -> Vec<u8> {
    [b"://".to_vec(), user(random, true), user(random, true)].concat()
}

/// Digits, perhaps many, and a byte that is none.
fn crooked_port(random: &mut Random) -> Vec<u8> {
    let mut port = port(random, true);
    port.push(*random.pick(b":;@-a\0\\ "));
    port
}

/// Up to `LONGEST_PART` bytes out of these.
fn run(random: &mut Random, bytes: &[u8]) -> Vec<u8> {
    let length = random.spread(LONGEST_PART);
    (0..length).map(|_| *random.pick(bytes)).collect()
}

/// "optionally a text (perhaps empty) without "@" and then "@""
fn user(random: &mut Random, long: bool) -> Vec<u8> {
    const USERS: [&str; 10] = [
        "",
        "",
        "",
        "",
        "@",
        "u@",
        "u:p@",
        "a.b:80@",
        "%40:;=@",
        "10.4.0.7@",
    ];
    if long {
        return [&run(random, USER_BYTES), b"@".as_slice()].concat();
    }
    random.pick(&USERS).bytes().collect()
}

/// "optionally ":" and digits or nothing"
fn port(random: &mut Random, long: bool) -> Vec<u8> {
    const PORTS: [&str; 7] = ["", "", "", ":", ":0", ":443", ":99999999999999999999"];
    if long {
        return [b":", run(random, b"0123456789").as_slice()].concat();
    }
    random.pick(&PORTS).bytes().collect()
}

/// A path, a query or a fragment, with its first byte.
fn tail(random: &mut Random, long: bool) -> Vec<u8> {
    const TAILS: [&str; 11] = [
        "", "", "", "/", "/x", "?q@r", "#f", "/@:/", "?", "#:x", "/.7",
    ];
    if long {
        return [&[*random.pick(b"/?#")], run(random, TAIL_BYTES).as_slice()].concat();
    }
    random.pick(&TAILS).bytes().collect()
}
