//! Request 4/13: a table of jobs for the writers, around every limit that they
//! have.

mod disagreeing;
mod fields;

use super::{mixed, texts};
use crate::examples::domain_of;
use crate::generate::Job;
use crate::longest;
use crate::records::kind::{CN, DNS, SRV, URI};
use crate::tree::{content_of, general_name};

/// A job and what it is a job of.
pub type Line = (String, Job);

/// Takes the lines of the table one by one.
type Taker<'t> = &'t mut dyn FnMut(Line);

/// Hands over the whole table, line by line.
pub fn each(take: Taker) {
    text_lengths(take);
    san_sizes(take);
    san_limits(take);
    name_counts(take);
    every_kind(take);
    every_byte(take);
    deep_bytes(take);
    small_texts(take);
    misspelled(take);
    disagreeing::each(take);
    fields::each(take);
}

/// A name of each kind of a SAN.
const NAMES: [(u8, &[u8]); 3] = [(DNS, b"a.b"), (SRV, b"_m.b.c"), (URI, b"sip://a.b")];
/// A record of each kind.
const RECORDS: [(u8, &[u8], &[u8]); 4] = [
    (DNS, b"", b"a.b"),
    (SRV, b"sip", b"b.c"),
    (URI, b"s+p", b"a.b.c"),
    (CN, b"", b"4.example"),
];

/// An SRVName of this many bytes with a service of so many of them.
fn srv_text(length: usize, service: usize) -> Vec<u8> {
    let domain = domain_of(length - 2 - service);
    [b"_", mixed(service).as_slice(), b".", &domain].concat()
}

/// A URI of this many bytes, from nine on.
fn uri_text(length: usize) -> Vec<u8> {
    [b"h://a.b/".as_slice(), &vec![b'p'; length - 8]].concat()
}

/// One name of every length that a text may have, and of some that none has.
fn text_lengths(take: Taker) {
    for length in 1..=260 {
        let wildcard = [b"*.".as_slice(), &domain_of(length)].concat();
        for text in [domain_of(length), wildcard] {
            alone(take, DNS, &text);
        }
        alone(take, URI, &uri_text(length + 8));
        alone(take, URI, &[b"h://", domain_of(length).as_slice()].concat());
    }
    for length in 4..=325 {
        for service in [1, 30, 62, 63] {
            if (service + 3..=service + 258).contains(&length) {
                alone(take, SRV, &srv_text(length, service));
            }
        }
    }
    for length in 58..=68 {
        alone(take, SRV, &[b"_", mixed(length).as_slice(), b".b"].concat());
        alone(take, URI, &[mixed(length).as_slice(), b"://b"].concat());
    }
    const LONG: [usize; 24] = [
        511, 512, 1023, 1024, 4095, 4096, 8191, 8192, 16_370, 16_371, 16_372, 16_373, 16_374,
        16_375, 16_376, 16_377, 16_378, 16_384, 16_385, 65_535, 65_536, 65_545, 70_000, 131_081,
    ];
    for length in LONG {
        alone(take, URI, &uri_text(length));
        let user = [b"h://", vec![b'u'; length - 8].as_slice(), b"@a.b"].concat();
        alone(take, URI, &user);
    }
}

/// A list of one name, and the same before and behind another one.
fn alone(take: Taker, kind: u8, text: &[u8]) {
    let other: (u8, &[u8]) = (DNS, b"b");
    let name = (kind, text);
    for names in [vec![name], vec![name, other], vec![other, name]] {
        let what = format!("kind {kind}, {} bytes, of {}", text.len(), names.len());
        take((what, Job::san(names)));
    }
}

/// Two names of every length of the first, so that the whole has every length
/// next to 127 and 255.
fn san_sizes(take: Taker) {
    for (kind, text) in NAMES {
        for first in 1..=253 {
            let first = domain_of(first);
            let job = Job::san([(DNS, first.as_slice()), (kind, text)]);
            take((format!("{} bytes before kind {kind}", first.len()), job));
        }
    }
}

/// SANs next to the limit: of one name, of two with the longer one first or
/// last, and of many with a longer one at either end.
fn san_limits(take: Taker) {
    for size in longest::SAN - 5..=longest::SAN + 6 {
        let room = content_of(size);
        for (kind, text) in NAMES {
            let short = general_name(kind, text).write().len();
            for count in [0, 1, 2, 16, 17, 255, 256, 300] {
                let long = uri_text(content_of(room - count * short));
                let crowd = vec![(kind, text); count];
                let first = [(URI, long.as_slice())].into_iter().chain(crowd.clone());
                let last = crowd.into_iter().chain([(URI, long.as_slice())]);
                let what = format!("SAN of {size}, {count} of kind {kind}");
                take((what.clone(), Job::san(first)));
                take((what, Job::san(last)));
            }
        }
    }
}

/// Numbers of names next to powers of two and to what the limit lets in, all
/// good, and with one that is none at either end and in the middle.
fn name_counts(take: Taker) {
    const COUNTS: [usize; 31] = [
        1, 2, 3, 4, 7, 8, 9, 15, 16, 17, 31, 32, 33, 63, 64, 65, 127, 128, 129, 255, 256, 257, 511,
        512, 513, 1023, 1024, 4096, 5459, 5460, 5461,
    ];
    for count in COUNTS {
        crowd(take, count, (DNS, b"b"));
        crowd(take, count, (URI, b"h://b"));
        crowd(take, count, (SRV, b"_m.b"));
    }
    for count in [2, 4, 5, 16, 17, 40] {
        for length in [113, 114, 125, 126, 127, 128, 239, 240, 252, 253, 255, 256] {
            for (kind, text) in [(SRV, srv_text(length, 9)), (URI, uri_text(length))] {
                let names = vec![(kind, text.as_slice()); count];
                take((format!("{count} names of {length} bytes"), Job::san(names)));
            }
        }
    }
    // What a narrower number would take for less than the limit.
    for count in [21_845, 21_846, 21_860, 32_768] {
        crowd(take, count, (DNS, b"b"));
    }
}

/// So many good names, and the same with one that is none.
fn crowd(take: Taker, count: usize, name: (u8, &[u8])) {
    let good = vec![name; count];
    take((format!("{count} names"), Job::san(good.clone())));
    let bad: [(u8, &[u8]); 5] = [
        (DNS, b"-"),
        (DNS, b""),
        (SRV, b"_m."),
        (URI, b"h://b/\xFF"),
        (4, b"b"),
    ];
    for place in [0, count / 2, count - 1] {
        for bad in bad {
            let mut names = good.clone();
            names[place] = bad;
            let what = format!("{count} names, {place} is of kind {} and none", bad.0);
            take((what, Job::san(names)));
        }
    }
}

/// Every kind for every text, alone and behind a good one.
fn every_kind(take: Taker) {
    for kind in 0..=255 {
        for (good, text) in NAMES {
            take((format!("kind {kind}"), Job::san([(kind, text)])));
            let behind = [(good, text), (kind, text)];
            take((format!("kind {kind} behind {good}"), Job::san(behind)));
        }
        for (good, service, domain) in RECORDS {
            let record = (kind, service, domain);
            take((format!("record of kind {kind}"), Job::records([record])));
            let behind = [(good, service, domain), record];
            let what = format!("record of kind {kind} behind {good}");
            take((what, Job::records(behind)));
        }
    }
}

/// Every byte in every place of a name, and of a record's texts, and behind
/// them.
fn every_byte(take: Taker) {
    let uri: (u8, &[u8]) = (URI, b"s+p://u:@a.b:80/p?q#f");
    for value in 0..=255 {
        for (kind, text) in NAMES.into_iter().chain([(DNS, b"*.b.c".as_slice()), uri]) {
            for changed in changed(text, value) {
                let what = format!("byte {value:02X} in a name of kind {kind}");
                take((what, Job::san([(kind, changed.as_slice())])));
            }
        }
        for (kind, service, domain) in RECORDS {
            let what = format!("byte {value:02X} in a record of kind {kind}");
            for service in changed(service, value) {
                let record = (kind, service.as_slice(), domain);
                take((what.clone(), Job::records([record])));
            }
            for domain in changed(domain, value) {
                let record = (kind, service, domain.as_slice());
                take((what.clone(), Job::records([record])));
            }
        }
    }
}

/// The text with this byte in each of its places, and behind it.
fn changed(text: &[u8], value: u8) -> Vec<Vec<u8>> {
    let put = |place: usize| {
        let mut text = [text, &[value]].concat();
        text[place] = value;
        if place < text.len() - 1 {
            text.pop();
        }
        text
    };
    (0..=text.len()).map(put).collect()
}

/// Long texts with a byte at a place far behind, in the part of a URI that may
/// have any byte, and in a domain.
fn deep_bytes(take: Taker) {
    const PLACES: [usize; 16] = [
        0, 1, 7, 8, 15, 16, 31, 32, 63, 64, 127, 128, 240, 255, 256, 4096,
    ];
    for place in PLACES {
        for value in [0x00, 0x7F, 0x80, 0xC3, 0xFF] {
            let mut run = vec![b'x'; place + 2];
            run[place] = value;
            let user = [b"h://", run.as_slice(), b"@a.b"].concat();
            let path = [b"h://a.b/", run.as_slice()].concat();
            let last = [b"h://a.b#", &run[..=place]].concat();
            let mut domain = domain_of(place + 2);
            domain[place] = value;
            for (kind, text) in [(URI, user), (URI, path), (URI, last), (DNS, domain)] {
                alone(take, kind, &text);
            }
        }
    }
}

/// Every small text as a name of each kind, and as a record's texts.
fn small_texts(take: Taker) {
    for text in texts(b"aZ.-*_7", 4) {
        for (kind, before) in [(DNS, ""), (SRV, "_m."), (SRV, "_"), (URI, "h://")] {
            let text = [before.as_bytes(), &text].concat();
            take((
                format!("small text of kind {kind}"),
                Job::san([(kind, text.as_slice())]),
            ));
        }
    }
    for text in texts(b"aZ.-+_7", 3) {
        for (kind, service, domain) in RECORDS {
            let what = format!("small text in a record of kind {kind}");
            let other: &[u8] = b"a.Z";
            for (service, domain) in [(text.as_slice(), other), (service, &text), (&text, domain)] {
                take((what.clone(), Job::records([(kind, service, domain)])));
            }
        }
    }
}

/// Texts that are a name for one byte or one mark more or less, and some that
/// are one.
const MISSPELLED: [&str; 3] = [
    "a.b.|.a.b|a..b|a b.c|a_b.c|-a.b|a-.b|a.-b|a.b-|*a.b.c|a*.b.c|*.*.b.c|*.a.7|*..b.c|*.b.c.|\
     **.b.c|xn--p1ai.b|4.example|a.7b|a.b | a.b|m.b.c|_m.b.c|sip://a.b",
    "_m._tcp.b.c|__m.b.c|_m|_m.|_.b|_.b.c|_m..b|_-m.b|_m-.b|_m.b.c.|_m.*.b.c|*._m.b.c|_7.b.c|\
     _m.b.7|_xmpp-server.b.c|_x--y.b|_m+n.b|_m.b_c|_m.b.c |_h://a.b",
    "sip:a.b|sip:/a.b|sip//a.b|://a.b|9h://a.b|h://|h:///a.b|h://@|h://@a.b|h://:@a.b|\
     h://u@v@a.b|h://a.b:|h://a.b:8a|h://a.b:99999999999999999999|h://a.b:1:2|h://[::1]|\
     h://a.b.|h://a.b?q|h://a.b#f@x|h://%61.b|h://a.b\\x|h+x.9-://a.b|h://*.b.c|h://10.4.0.7",
];

/// Misspelled texts as names of each kind, and as a record's texts.
fn misspelled(take: Taker) {
    for text in MISSPELLED.iter().flat_map(|texts| texts.split('|')) {
        let text = text.as_bytes();
        for kind in [DNS, SRV, URI] {
            alone(take, kind, text);
        }
        for (kind, service, domain) in RECORDS {
            let what = format!("misspelled text in a record of kind {kind}");
            take((what.clone(), Job::records([(kind, text, domain)])));
            take((what, Job::records([(kind, service, text)])));
        }
    }
}
