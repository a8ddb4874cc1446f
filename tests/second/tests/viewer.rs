//! The viewer of request 3/13: its edges, its limits, and generated strings
//! against a slow reading of the request over the listing.

use second::examples::{THREE_ATTRIBUTES, THREE_SUBTREES, TWO_ENTRIES};
use second::generate::positions::positions;
use second::generate::{self, boundary, Case, Random};
use second::tree::*;
use second::{list, Row, Viewer, Which};
use std::collections::BTreeSet;

/// What a step shows, and the position after it.
type Sight = (Option<[usize; 4]>, usize);

fn numbers(row: Row) -> [usize; 4] {
    [row.kind, row.start, row.length, row.group]
}

fn step(viewer: &mut Viewer) -> Sight {
    (viewer.step().map(numbers), viewer.position())
}

/// A step from a position.
fn view(bytes: &[u8], which: Which, at: usize) -> Sight {
    step(&mut Viewer::at(bytes, which, at))
}

/// An opening's answer, and the steps that follow it.
fn paging(bytes: &[u8], which: Which, steps: usize) -> (u32, Vec<Sight>) {
    let (answer, mut viewer) = Viewer::open(bytes, which);
    assert_eq!(viewer.position(), 0);
    (answer, (0..steps).map(|_| step(&mut viewer)).collect())
}

/// The opening is accepted, the steps from it show these rows, each with the
/// position behind it, and then the end, three times.
fn pages_through(bytes: &[u8], which: Which, rows: &[([usize; 4], usize)]) {
    let last = rows.last().map_or(0, |(_, at)| *at);
    let mut wanted: Vec<Sight> = rows.iter().map(|&(row, at)| (Some(row), at)).collect();
    wanted.extend([(None, last); 3]);
    assert_eq!(paging(bytes, which, wanted.len()), (0, wanted));
}

/// Positions that no string reaches; fewer bits would bring some back.
const FAR: [usize; 9] = [
    1 << 16,
    (1 << 16) + 2,
    1 << 31,
    (1 << 32) - 1,
    1 << 32,
    (1 << 32) + 2,
    1 << 63,
    usize::MAX - 1,
    usize::MAX,
];

/// From every position, up to two behind the string and far behind it, the row
/// is the first of these starts that is not before it; none is the end, which
/// does not move the position.
fn shows_from(bytes: &[u8], which: Which, starts: &[usize]) {
    let rows = list(bytes, which).rows;
    assert_eq!(rows.len(), starts.len());
    for at in (0..=bytes.len() + 2).chain(FAR) {
        let (shown, after) = view(bytes, which, at);
        match starts.iter().position(|&start| start >= at) {
            Some(index) => {
                assert_eq!(shown, Some(numbers(rows[index])), "from {at}");
                assert_eq!(after, rows[index].start + rows[index].length);
            }
            None => assert_eq!((shown, after), (None, at), "from {at}"),
        }
    }
}

/// Every step is the end, at the position that it is handed.
fn shows_nothing(bytes: &[u8], which: Which) {
    shows_from(bytes, which, &[]);
}

#[test]
fn two_entries() {
    let (first, second) = ([2, 2, 5, 0], [2, 7, 5, 1]);
    pages_through(&TWO_ENTRIES, Which::San, &[(first, 7), (second, 12)]);
    shows_from(&TWO_ENTRIES, Which::San, &[2, 7]);
    let from = |at| view(&TWO_ENTRIES, Which::San, at);
    for at in 0..=2 {
        assert_eq!(from(at), (Some(first), 7));
    }
    for at in 3..=7 {
        assert_eq!(from(at), (Some(second), 12));
    }
    for at in [8, 12, usize::MAX] {
        assert_eq!(from(at), (None, at));
    }
}

/// The position behind the first set's last attribute is the header of the next
/// set, and that of the last is the string's end.
#[test]
fn three_attributes() {
    let rows = [
        ([12, 4, 10, 0], 14),
        ([10, 14, 12, 0], 26),
        ([11, 28, 10, 1], 38),
    ];
    pages_through(&THREE_ATTRIBUTES, Which::Subject, &rows);
    shows_from(&THREE_ATTRIBUTES, Which::Subject, &[4, 14, 28]);
    for at in 15..=28 {
        let shown = view(&THREE_ATTRIBUTES, Which::Subject, at);
        assert_eq!(shown, (Some([11, 28, 10, 1]), 38));
    }
}

/// A row starts at its GeneralName, and not at the SEQUENCE around it.
#[test]
fn three_subtrees() {
    let rows = [
        ([9, 6, 18, 0], 24),
        ([2, 28, 5, 1], 33),
        ([9, 35, 17, 1], 52),
    ];
    pages_through(&THREE_SUBTREES, Which::Constraints, &rows);
    shows_from(&THREE_SUBTREES, Which::Constraints, &[6, 28, 35]);
    for (at, start) in [(4, 6), (24, 28), (26, 28), (28, 28), (29, 35), (33, 35)] {
        let (shown, _) = view(&THREE_SUBTREES, Which::Constraints, at);
        assert_eq!(shown.map(|row| row[1]), Some(start), "from {at}");
    }
}

/// `30 00` and the empty string, as each of the three: the opening's answer, and
/// no row. "An absent string opens at its end."
#[test]
fn strings_without_rows() {
    let answers: [(&[u8], [u32; 3]); 2] = [(&[0x30, 0x00], [3, 0, 5]), (&[], [0, 4, 0])];
    for (bytes, answers) in answers {
        for (which, answer) in Which::ALL.into_iter().zip(answers) {
            assert_eq!(paging(bytes, which, 3), (answer, vec![(None, 0); 3]));
            shows_nothing(bytes, which);
        }
    }
}

#[test]
fn unreadable_strings() {
    let mut behind = TWO_ENTRIES.to_vec();
    behind.push(0);
    let unreadable: [(&[u8], Which, u32); 6] = [
        (&behind, Which::San, 3),
        (&TWO_ENTRIES[..11], Which::San, 3),
        (&THREE_ATTRIBUTES, Which::San, 3),
        (&THREE_SUBTREES, Which::Subject, 4),
        (&TWO_ENTRIES, Which::Constraints, 5),
        (&THREE_SUBTREES[..24], Which::Constraints, 5),
    ];
    for (bytes, which, answer) in unreadable {
        assert_eq!(paging(bytes, which, 3), (answer, vec![(None, 0); 3]));
        shows_nothing(bytes, which);
    }
    // The fault stands behind a row that could be shown.
    let entries = vec![dns_name(b"a.b"), dns_name(b"\x80")];
    assert_eq!(
        paging(&san(entries).write(), Which::San, 1),
        (3, vec![(None, 0)])
    );
}

/// A string of this many bytes with one row.
fn of_size(which: Which, size: usize) -> Vec<u8> {
    let inside = |levels: usize| (0..levels).fold(size, |size, _| content_of(size));
    let tree = match which {
        Which::San => san(vec![dns_name(&vec![b'a'; inside(2)])]),
        Which::Subject => {
            let text = vec![b'a'; content_of(inside(3) - 5)];
            subject(vec![rdn(vec![common_name(0x0C, &text)])])
        }
        Which::Constraints => {
            let base = email(&vec![b'a'; inside(4)]);
            constraints(Vec::new(), vec![subtree(base)])
        }
    };
    let bytes = tree.write();
    assert_eq!(bytes.len(), size);
    bytes
}

/// "over-long ones with 7, in 01's order": 7 also where the bytes are
/// unreadable, and no row of those that are readable.
#[test]
fn openings_at_the_limit_and_past_it() {
    let limits = [
        (Which::San, 16_384, [2, 4, 16_380, 0], 3),
        (Which::Subject, 4_096, [10, 8, 4_088, 0], 4),
        (Which::Constraints, 16_384, [1, 12, 16_372, 1], 5),
    ];
    for (which, limit, row, unreadable) in limits {
        let longest = of_size(which, limit);
        pages_through(&longest, which, &[(row, limit)]);
        shows_from(&longest, which, &[row[1]]);
        let longer = of_size(which, limit + 1);
        assert_eq!(paging(&longer, which, 3), (7, vec![(None, 0); 3]));
        for at in [0, 4, 8, 12, 13, limit, limit + 1, usize::MAX] {
            assert_eq!(view(&longer, which, at), (None, at));
        }
        let (answer, _) = paging(&vec![0x30; limit], which, 0);
        assert_eq!(answer, unreadable);
        let (answer, _) = paging(&vec![0x30; limit + 1], which, 0);
        assert_eq!(answer, 7);
    }
}

/// The certificate strings of a case: SAN, subject, and the constraints of each
/// issuer or, where there is none, absent constraints.
fn strings(case: &Case) -> Vec<(Which, &[u8])> {
    let mut constraints = case.constraints.strings();
    if constraints.is_empty() {
        constraints.push(b"");
    }
    let constraints = constraints.into_iter();
    [(Which::San, &case.san[..]), (Which::Subject, &case.subject)]
        .into_iter()
        .chain(constraints.map(|string| (Which::Constraints, string)))
        .collect()
}

/// Takes the strings of many generated cases and of the boundary table.
fn each_string(take: impl Fn(&[u8], Which, &mut Random)) {
    let take_all = |case: &Case, random: &mut Random| {
        for (which, bytes) in strings(case) {
            take(bytes, which, random);
        }
    };
    for number in 0..30_000 {
        take_all(&generate::case(31, number), &mut Random::new(32, number));
    }
    let mut random = Random::new(33, 0);
    boundary::each(&mut |(_, case)| take_all(&case, &mut random));
}

/// Rows times bytes of a string that is paged through here.
const PAGED: usize = 1 << 18;

/// "From an opening the steps show exactly the listing's rows, in order, then
/// the end at every further step. After a row the position stands just past its
/// element."
#[test]
fn paging_shows_the_listing() {
    each_string(|bytes, which, _| {
        let listing = list(bytes, which);
        if listing.rows.len() * bytes.len() > PAGED {
            return;
        }
        let (answer, mut viewer) = Viewer::open(bytes, which);
        assert_eq!(answer, listing.answer);
        let mut position = viewer.position();
        assert_eq!(position, 0);
        for row in listing.rows {
            assert_eq!(viewer.step(), Some(row), "{which:?}: {bytes:02X?}");
            position = row.start + row.length;
            assert_eq!(viewer.position(), position);
        }
        for _ in 0..3 {
            assert_eq!((viewer.step(), viewer.position()), (None, position));
        }
    });
}

/// "Each step shows the first row of 01's listing that starts at or past the
/// position", in a table of all rows.
fn first_from(rows: &[Row], at: usize) -> Option<Row> {
    rows.iter().copied().find(|row| row.start >= at)
}

#[test]
fn positions_against_the_listing() {
    each_string(|bytes, which, random| {
        let rows = list(bytes, which).rows;
        for at in positions(random, bytes.len(), &rows) {
            let mut viewer = Viewer::at(bytes, which, at);
            let row = viewer.step();
            assert_eq!(
                row,
                first_from(&rows, at),
                "{which:?} from {at}: {bytes:02X?}"
            );
            let after = row.map_or(at, |row| row.start + row.length);
            assert_eq!(viewer.position(), after);
        }
    });
}

/// What a row has behind another one: what it is, in how many SANs, subjects and
/// constraints it must be there, and how it is told.
type Behind = (&'static str, [u32; 3], fn(&[u8], &Row, &Row) -> bool);

const BEHIND: [Behind; 5] = [
    ("header of 2 bytes", [1_000; 3], |bytes, _, row| {
        header(bytes, row) == 2
    }),
    ("header of 3 bytes", [200; 3], |bytes, _, row| {
        header(bytes, row) == 3
    }),
    ("header of 4 bytes", [200; 3], |bytes, _, row| {
        header(bytes, row) == 4
    }),
    ("another group", [1_000; 3], |_, before, row| {
        before.group != row.group
    }),
    // Each entry of a SAN is a group of its own.
    ("the same group", [0, 1_000, 1_000], |_, before, row| {
        before.group == row.group
    }),
];

/// The bytes of the header of a row's element.
fn header(bytes: &[u8], row: &Row) -> usize {
    match bytes[row.start + 1] {
        0x81 => 3,
        0x82 => 4,
        _ => 2,
    }
}

#[test]
fn the_positions_of_request_3_are_tried() {
    const CASES: u64 = 40_000;
    let mut counts = [[0; 3]; BEHIND.len()];
    for number in 0..CASES {
        for (which, bytes) in strings(&generate::case(7, number)) {
            let rows = list(bytes, which).rows;
            for (counts, (_, _, is)) in counts.iter_mut().zip(BEHIND) {
                let found = rows.windows(2).any(|pair| is(bytes, &pair[0], &pair[1]));
                counts[which as usize] += u32::from(found);
            }
        }
    }
    for (counts, (what, leasts, _)) in counts.into_iter().zip(BEHIND) {
        let enough = counts
            .iter()
            .zip(&leasts)
            .all(|(count, least)| count >= least);
        assert!(enough, "{what}: {counts:?} of {CASES}");
    }
}

/// Positions that a narrower number would cut are tried: in the boundary table
/// rows of each string start at, before and behind each power of two.
#[test]
fn rows_start_next_to_powers_of_two() {
    let mut starts = [(); 3].map(|()| BTreeSet::new());
    boundary::each(&mut |(_, case)| {
        for (which, bytes) in strings(&case) {
            let rows = list(bytes, which).rows;
            starts[which as usize].extend(rows.iter().map(|row| row.start));
        }
    });
    for (starts, longest) in starts.iter().zip(Which::ALL.map(Which::longest)) {
        let powers = (4..).map(|bits| 1 << bits);
        for power in powers.take_while(|&power: &usize| power < longest) {
            for start in power - 1..=power + 1 {
                assert!(starts.contains(&start), "{start} of {longest}");
            }
        }
    }
}
