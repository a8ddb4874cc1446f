//! URIs: every part of every length, and every byte in every part.

use super::{small, Taker};
use crate::records::kind::URI;
use crate::tree::{record, uri_name};

/// Hands over the lines about URIs. The reference is `h`, `a.b`.
pub fn each(take: Taker) {
    long_parts(take);
    every_byte(take);
    for host in [
        "%61.b", "a%2Eb", "a.b%00", "[a.b]", " a.b", "a.b ", "u%40a.b",
    ] {
        line(take, "odd host", &[b"h://", host.as_bytes()]);
    }
}

fn line(take: Taker, what: &str, text: &[&[u8]]) {
    let references = [record(URI, b"h", b"a.b")];
    take(small(what, uri_name(&text.concat()), &references));
}

/// URI-IDs with one long part, and texts that are none for one byte in it or
/// behind it.
fn long_parts(take: Taker) {
    const LENGTHS: [usize; 20] = [
        7, 8, 9, 16, 17, 32, 33, 64, 65, 127, 128, 255, 256, 330, 331, 512, 1024, 4096, 8192,
        16_000,
    ];
    for length in LENGTHS {
        let run = |byte: u8| vec![byte; length];
        let (user, colons, digits) = (run(b'u'), run(b':'), run(b'7'));
        let (ats, slashes) = (run(b'@'), run(b'/'));
        line(take, "long user", &[b"h://", &user, b"@a.b"]);
        line(take, "colons", &[b"h://", &colons, b"@a.b:1"]);
        line(take, "long port", &[b"h://a.b:", &digits]);
        line(take, "port of a user", &[b"h://a.b:", &digits, b"@a.b"]);
        line(take, "long path", &[b"h://a.b/", &ats]);
        line(take, "long query", &[b"h://a.b?", &slashes, b"@x"]);
        line(take, "long fragment", &[b"h://a.b#", &ats]);
        line(take, "no user", &[b"h://", &user, b"a.b"]);
        line(take, "two users", &[b"h://", &user, b"@@a.b"]);
        line(take, "@ far behind", &[b"h://", &user, b"/@a.b"]);
        line(take, "no port", &[b"h://a.b:", &digits, b"x"]);
        line(take, "two ports", &[b"h://a.b:", &digits, b":"]);
        line(take, "long host", &[b"h://a.b", &digits]);
    }
}

/// Every byte value in and around each part.
fn every_byte(take: Taker) {
    for value in 0..=255 {
        let byte = [value];
        line(take, "byte in a user", &[b"h://", &byte, b"@a.b"]);
        line(take, "byte behind @", &[b"h://u@", &byte, b"a.b"]);
        line(take, "byte in a host", &[b"h://u", &byte, b"a.b"]);
        line(take, "byte behind a host", &[b"h://a.b", &byte]);
        line(take, "bytes behind a host", &[b"h://a.b", &byte, b"x"]);
        line(take, "byte in a port", &[b"h://a.b:8", &byte, b"0"]);
        line(take, "byte in a path", &[b"h://a.b/", &byte, b"@x"]);
        line(take, "byte in a mark", &[b"h:/", &byte, b"a.b"]);
        line(take, "byte before a mark", &[b"h", &byte, b"//a.b"]);
    }
}
