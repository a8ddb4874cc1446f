/* Document 01's desk examples, those of document 02's requests, old faults, every answer, and what the header says of unreadable
 * strings, records and rows, through the archive as a kiosk's C program calls it.
 *
 * Each input lies in an allocation of exactly its size, and a second time at the very end of a page that is followed by one that
 * may not be touched: a read past the input's end stops the program.
 */
#include <stdio.h>
#include <stdlib.h>
#include <string.h>
#include <sys/mman.h>
#include <unistd.h>

#include "desk.h"

/* the constraints of all issuers end to end, and their lengths, two bytes each */
struct certificate {
    struct bytes san, subject, constraints, lengths, references;
};

static int failures = 0;
int cases = 0;

/* ---- byte strings */

struct bytes from_hex(const char *hex) {
    struct bytes b = {NULL, 0};
    unsigned value;
    size_t n = 0;
    for (const char *p = hex; *p; p++)
        n += (*p == ' ') ? 0 : 1;
    b.len = n / 2;
    if (b.len == 0)
        return b;
    b.at = malloc(b.len);
    if (!b.at)
        abort();
    for (size_t i = 0; i < b.len; i++) {
        while (*hex == ' ')
            hex++;
        if (sscanf(hex, "%2x", &value) != 1)
            abort();
        b.at[i] = (uint8_t)value;
        hex += 2;
    }
    return b;
}

struct bytes zeros(size_t len) {
    struct bytes b = {calloc(len ? len : 1, 1), len};
    if (!b.at)
        abort();
    return b;
}

/* one reference record */
static void put_record(uint8_t *record, uint8_t kind, const char *service, const char *domain) {
    size_t s = strlen(service), d = strlen(domain);
    memset(record, 0, BECKETHAND_RECORD_SIZE);
    record[BECKETHAND_AT_KIND] = kind;
    record[BECKETHAND_AT_SERVICE_LENGTH] = (uint8_t)s;
    record[BECKETHAND_AT_DOMAIN_LENGTH] = (uint8_t)d;
    memcpy(record + BECKETHAND_AT_SERVICE, service, s);
    memcpy(record + BECKETHAND_AT_DOMAIN, domain, d);
}

static struct bytes record(uint8_t kind, const char *service, const char *domain) {
    struct bytes b = zeros(BECKETHAND_RECORD_SIZE);
    put_record(b.at, kind, service, domain);
    return b;
}

/* the length of one issuer's string; no length where it is empty */
static struct bytes one_length(size_t len) {
    struct bytes b = zeros(len ? 2 : 0);
    if (len) {
        b.at[0] = (uint8_t)(len >> 8);
        b.at[1] = (uint8_t)len;
    }
    return b;
}

/* ---- the calls */

#define ARGUMENTS(c) (c).san.at, (c).san.len, (c).subject.at, (c).subject.len, (c).constraints.at, (c).constraints.len, \
                     (c).lengths.at, (c).lengths.len, (c).references.at, (c).references.len

static void ask(struct certificate c, uint32_t got[8]) {
    got[0] = beckethand_answer(ARGUMENTS(c));
    got[1] = beckethand_reference(ARGUMENTS(c));
    got[2] = beckethand_presented(ARGUMENTS(c));
    got[3] = beckethand_start(ARGUMENTS(c));
    got[4] = beckethand_length(ARGUMENTS(c));
    got[5] = beckethand_issuer(ARGUMENTS(c));
    got[6] = beckethand_text_start(ARGUMENTS(c));
    got[7] = beckethand_text_length(ARGUMENTS(c));
}

/* all numbers at once are those of the single calls */
static bool same_at_once(struct certificate c, const uint32_t got[8]) {
    struct beckethand_verdict v = beckethand_verdict(ARGUMENTS(c));
    return v.answer == got[0] && v.reference == got[1] && v.presented == got[2] && v.start == got[3] && v.length == got[4]
        && v.issuer == got[5] && v.text_start == got[6] && v.text_length == got[7];
}

/* a copy that ends where a page ends which may not be left */
struct bytes guarded(struct bytes b) {
    size_t page = (size_t)sysconf(_SC_PAGESIZE);
    size_t room = (b.len + page - 1) / page * page;
    uint8_t *base = mmap(NULL, room + page, PROT_READ | PROT_WRITE, MAP_PRIVATE | MAP_ANONYMOUS, -1, 0);
    if (base == MAP_FAILED || mprotect(base + room, page, PROT_NONE) != 0)
        abort();
    struct bytes copy = {base + room - b.len, b.len};
    if (b.len)
        memcpy(copy.at, b.at, b.len);
    return copy;
}

void check(const char *name, const char *what, bool good) {
    if (!good) {
        printf("FAILED %s: %s\n", name, what);
        failures++;
    }
}

static void expect(const char *name, struct certificate c, uint32_t a, uint32_t r, uint32_t p, uint32_t s, uint32_t l, uint32_t i) {
    uint32_t want[6] = {a, r, p, s, l, i}, got[8], again[8];
    cases++;
    ask(c, got);
    if (memcmp(got, want, sizeof want) != 0) {
        printf("FAILED %s: %u %u %u %u %u %u, not %u %u %u %u %u %u\n", name, got[0], got[1], got[2], got[3], got[4], got[5], a, r, p, s, l,
               i);
        failures++;
    }
    check(name, "other numbers from the call that gives them all", same_at_once(c, got));
    struct certificate g = {guarded(c.san), guarded(c.subject), guarded(c.constraints), guarded(c.lengths), guarded(c.references)};
    ask(g, again);
    check(name, "another answer at the end of a page", memcmp(again, got, sizeof got) == 0 && same_at_once(g, got));
}

/* an answer with zeros beside it */
static void expect_zeros(const char *name, struct certificate c, uint32_t answer) { expect(name, c, answer, 0, 0, 0, 0, 0); }

/* the witness's text, as a part of the SAN or the subject */
static void expect_text(const char *name, struct certificate c, bool in_subject, const char *text) {
    uint32_t start = beckethand_text_start(ARGUMENTS(c)), length = beckethand_text_length(ARGUMENTS(c));
    struct bytes where = in_subject ? c.subject : c.san;
    cases++;
    check(name, "the text's length", length == strlen(text));
    check(name, "the text's place", (size_t)start + length <= where.len);
    if (length == strlen(text) && (size_t)start + length <= where.len)
        check(name, "the text's bytes", length == 0 || memcmp(where.at + start, text, length) == 0);
}

/* ---- listings */

static const struct beckethand_row old_row = {91, 92, 93, 94};

static bool same_row(struct beckethand_row a, struct beckethand_row b) {
    return a.kind == b.kind && a.start == b.start && a.length == b.length && a.group == b.group;
}

/* ---- the viewer */

/* a step that shows this row and stands just past it, or with no row is at the end and stays */
static bool is_view(struct beckethand_sight v, const struct beckethand_row *row, size_t at) {
    static const struct beckethand_row none = {0, 0, 0, 0};
    struct beckethand_row shown = {v.kind, v.start, v.length, v.group};
    return v.shown == (row ? 1 : 0) && same_row(shown, row ? *row : none) && v.at == (row ? row->start + row->length : at);
}

/* every view of a string shows the first of these rows that starts at or past the position */
static void expect_views(const char *name, struct bytes b, size_t which, size_t count, const struct beckethand_row *rows) {
    static const size_t far[] = {(size_t)1 << 16, (size_t)1 << 32, ((size_t)1 << 32) + 2, (size_t)1 << 63, SIZE_MAX};
    size_t near = b.len + 3;
    for (size_t k = 0; k < near + sizeof far / sizeof *far; k++) {
        size_t at = k < near ? k : far[k - near], i = 0;
        while (i < count && rows[i].start < at)
            i++;
        check(name, "a view", is_view(beckethand_view(b.at, b.len, which, at), i < count ? &rows[i] : NULL, at));
    }
}

/* from an opening the steps show these rows, and then the end, twice more */
static void expect_pages(const char *name, struct bytes b, size_t which, size_t count, const struct beckethand_row *rows) {
    size_t at = BECKETHAND_OPENING_AT;
    for (size_t i = 0; i < count + 3; i++) {
        struct beckethand_sight v = beckethand_view(b.at, b.len, which, at);
        check(name, "a page", is_view(v, i < count ? &rows[i] : NULL, at));
        at = v.at;
    }
}

/* the viewer agrees with what a listing with room says; at the end of a page too */
static void expect_viewer(const char *name, struct bytes b, size_t which, size_t answer) {
    struct beckethand_row rows[600];
    struct beckethand_listed listed = beckethand_list(rows, 600, b.at, b.len, which);
    struct bytes last = guarded(b);
    cases++;
    check(name, "more rows than the test has room for", listed.answer != BECKETHAND_TABLE_TOO_SHORT);
    check(name, "the listing's answer", listed.answer == answer);
    check(name, "the opening", beckethand_opening(b.at, b.len, which) == answer);
    check(name, "the opening at the end of a page", beckethand_opening(last.at, last.len, which) == answer);
    expect_views(name, b, which, listed.count, rows);
    expect_pages(name, b, which, listed.count, rows);
    expect_views(name, last, which, listed.count, rows);
}

/* ---- listings into a table */

/* lists into a table that held other rows; the rows past those expected, or all on a refusal, must have stayed. The viewer shows the
 * same rows */
static void expect_list(const char *name, struct bytes b, size_t which, size_t lent, size_t answer, size_t count,
                        const struct beckethand_row *rows) {
    struct beckethand_row *table = malloc((lent ? lent : 1) * sizeof *table);
    if (!table)
        abort();
    for (size_t i = 0; i < lent; i++)
        table[i] = old_row;
    struct beckethand_listed r = beckethand_list(lent ? table : NULL, lent, b.at, b.len, which);
    cases++;
    if (r.answer != answer || r.count != count) {
        printf("FAILED %s: listing %zu %zu, not %zu %zu\n", name, r.answer, r.count, answer, count);
        failures++;
    }
    size_t written = answer == 0 ? count : 0;
    for (size_t i = 0; i < lent; i++)
        check(name, "a row", same_row(table[i], i < written ? rows[i] : old_row));
    free(table);
    expect_viewer(name, b, which, answer == BECKETHAND_TABLE_TOO_SHORT ? BECKETHAND_ACCEPTED : answer);
}

/* ---- the cases */

#define S "30 05 82 03 61 2E 62"
#define J "30 0E 31 0C 30 0A 06 03 55 04 03 0C 03 61 2E 62"
#define SRV_B "30 14 A0 12 06 08 2B 06 01 05 05 07 08 07 A0 06 16 04 5F 6D 2E 62"
#define SRV "30 16 A0 14 06 08 2B 06 01 05 05 07 08 07 A0 08 16 06 5F 6D 2E 62 2E 63"
#define PERMITS "30 16 A0 14 30 12 A0 10 06 08 2B 06 01 05 05 07 08 07 A0 04 16 02 5F 6D"
#define PERMITS_7 "30 16 A0 14 30 12 A0 10 06 08 2B 06 01 05 05 07 08 07 A0 04 16 02 5F 37"
#define PERMITS_N "30 16 A0 14 30 12 A0 10 06 08 2B 06 01 05 05 07 08 07 A0 04 16 02 5F 6E"

static struct certificate with(const char *san, const char *subject, const char *constraints, struct bytes references) {
    struct bytes one = from_hex(constraints);
    struct certificate c = {from_hex(san), from_hex(subject), one, one_length(one.len), references};
    return c;
}

static void desk_examples(void) {
    struct certificate c = with(S, J, "", record(BECKETHAND_DNS, "", "A.B"));
    expect("P16", c, 0, 0, 0, 2, 5, 0);
    expect_text("P16", c, false, "a.b");
    c = with("", J, "", record(BECKETHAND_CN, "", "a.b"));
    expect("CN", c, 0, 0, 0, 4, 12, 0);
    expect_text("CN", c, true, "a.b");
    expect("CN blocked by an empty dNSName", with("30 02 82 00", J, "", record(BECKETHAND_CN, "", "a.b")), 1, 0, 0, 0, 0, 0);
    c = with("30 81 05 82 03 61 2E 62", J, "", record(BECKETHAND_DNS, "", "a.b"));
    expect("a length that is not shortest", c, 3, 0, 0, 0, 0, 0);
    expect("an empty SEQUENCE", with("30 00", J, "", record(BECKETHAND_DNS, "", "a.b")), 3, 0, 0, 0, 0, 0);
    c = with(SRV, J, "", record(BECKETHAND_SRV, "m", "b.c"));
    expect("SRV", c, 0, 0, 0, 2, 22, 0);
    expect_text("SRV", c, false, "_m.b.c");
    expect("SRV permitted", with(SRV, J, PERMITS, record(BECKETHAND_SRV, "m", "b.c")), 0, 0, 0, 2, 22, 0);
    c = with(SRV, J, PERMITS_N, record(BECKETHAND_SRV, "m", "b.c"));
    expect("SRV not permitted", c, 2, 0, 0, 0, 0, 0);
    expect_text("SRV not permitted", c, false, "");
    /* SAN: URI `x://u@a.b:8/p` */
    c = with("30 0F 86 0D 78 3A 2F 2F 75 40 61 2E 62 3A 38 2F 70", J, "", record(BECKETHAND_URI, "X", "A.b"));
    expect("URI", c, 0, 0, 0, 2, 15, 0);
    expect_text("URI", c, false, "x://u@a.b:8/p");
}

static void old_faults(void) {
    /* SRVName `_m.1h.b` with `h.b` permitted */
    expect("the domain test ends on labels",
           with("30 17 A0 15 06 08 2B 06 01 05 05 07 08 07 A0 09 16 07 5F 6D 2E 31 68 2E 62", J,
                "30 17 A0 15 30 13 A0 11 06 08 2B 06 01 05 05 07 08 07 A0 05 16 03 68 2E 62", record(BECKETHAND_DNS, "", "a.b")),
           2, 0, 0, 0, 0, 0);
    expect("a CN is not cut at a zero byte",
           with("", "30 10 31 0E 30 0C 06 03 55 04 03 0C 05 61 2E 62 00 63", "", record(BECKETHAND_CN, "", "a.b")),
           1, 0, 0, 0, 0, 0);
    expect("a DNS-ID does not excuse an SRVName",
           with("30 19 82 03 61 2E 62 A0 12 06 08 2B 06 01 05 05 07 08 07 A0 06 16 04 5F 6D 2E 62", J, PERMITS_N,
                record(BECKETHAND_DNS, "", "a.b")),
           2, 0, 1, 0, 0, 0);
    struct bytes two = zeros(2 * BECKETHAND_RECORD_SIZE);
    put_record(two.at, BECKETHAND_DNS, "", "a.b");
    put_record(two.at + BECKETHAND_RECORD_SIZE, BECKETHAND_DNS, "", "c.d");
    expect("the lowest reference, then the lowest name", with("30 0A 82 03 63 2E 64 82 03 61 2E 62", J, "", two), 0, 0, 1, 7, 5, 0);
}

/* 1/13: "a wildcard needs at least two labels after it", and so does a record */
static void one_label(void) {
    const char *wild_b = "30 05 82 03 2A 2E 62", *wild_bc = "30 07 82 05 2A 2E 62 2E 63";
    expect_zeros("*.b, DNS", with(wild_b, J, "", record(BECKETHAND_DNS, "", "a.b")), BECKETHAND_MISMATCH);
    expect_zeros("*.b, CN", with(wild_b, J, "", record(BECKETHAND_CN, "", "a.b")), BECKETHAND_MISMATCH);
    expect("*.b.c, DNS", with(wild_bc, J, "", record(BECKETHAND_DNS, "", "a.b.c")), 0, 0, 0, 2, 7, 0);
    expect_zeros("*.b.c for b.c", with(wild_bc, J, "", record(BECKETHAND_DNS, "", "b.c")), BECKETHAND_MISMATCH);
    /* `*.example` */
    expect_zeros("*.example", with("30 0B 82 09 2A 2E 65 78 61 6D 70 6C 65", J, "", record(BECKETHAND_DNS, "", "branch.example")),
                 BECKETHAND_MISMATCH);
    /* the CNs `*.b` and `*.b.c` */
    expect_zeros("CN *.b",
                 with("", "30 0E 31 0C 30 0A 06 03 55 04 03 0C 03 2A 2E 62", "", record(BECKETHAND_CN, "", "a.b")),
                 BECKETHAND_MISMATCH);
    expect("CN *.b.c",
           with("", "30 10 31 0E 30 0C 06 03 55 04 03 0C 05 2A 2E 62 2E 63", "", record(BECKETHAND_CN, "", "a.b.c")),
           0, 0, 0, 4, 14, 0);
    expect_zeros("SRV m, b", with(SRV_B, J, "", record(BECKETHAND_SRV, "m", "b")), BECKETHAND_REFERENCES_UNREADABLE);
    /* `b` is permitted */
    expect_zeros("_m.b under b",
                 with(SRV_B, J, "30 15 A0 13 30 11 A0 0F 06 08 2B 06 01 05 05 07 08 07 A0 03 16 01 62",
                      record(BECKETHAND_DNS, "", "a.b")),
                 BECKETHAND_MISMATCH);
}

/* labels of 63 and 64 bytes, before a second label */
static void long_labels(void) {
    for (size_t n = 63; n <= 64; n++) {
        char domain[67] = {0};
        memset(domain, 'a', n);
        memcpy(domain + n, ".b", 2);
        struct certificate c = {zeros(n + 6), from_hex(J), {NULL, 0}, {NULL, 0}, record(BECKETHAND_DNS, "", domain)};
        const uint8_t headers[4] = {0x30, (uint8_t)(n + 4), 0x82, (uint8_t)(n + 2)};
        memcpy(c.san.at, headers, sizeof headers);
        memcpy(c.san.at + 4, domain, n + 2);
        if (n == 63)
            expect("a label of 63 bytes", c, 0, 0, 0, 2, 67, 0);
        else
            expect_zeros("a label of 64 bytes", c, BECKETHAND_REFERENCES_UNREADABLE);
    }
}

static void sizes(void) {
    struct certificate c = with(S, J, "", record(BECKETHAND_DNS, "", "A.B"));
    struct certificate d = c;
    d.san = zeros(BECKETHAND_SAN_LIMIT + 1);
    expect_zeros("SAN too long", d, BECKETHAND_INPUT_TOO_LONG);
    d.san = zeros(BECKETHAND_SAN_LIMIT);
    expect_zeros("SAN at its limit", d, BECKETHAND_SAN_UNREADABLE);
    d = c;
    d.subject = zeros(BECKETHAND_SUBJECT_LIMIT + 1);
    expect_zeros("subject too long", d, BECKETHAND_INPUT_TOO_LONG);
    d.subject = zeros(BECKETHAND_SUBJECT_LIMIT);
    expect_zeros("subject at its limit", d, BECKETHAND_SUBJECT_UNREADABLE);
    d = c;
    d.constraints = zeros(BECKETHAND_CONSTRAINTS_LIMIT + 1);
    d.lengths = one_length(BECKETHAND_CONSTRAINTS_LIMIT + 1);
    expect_zeros("constraints too long", d, BECKETHAND_INPUT_TOO_LONG);
    d.constraints = zeros(BECKETHAND_CONSTRAINTS_LIMIT);
    d.lengths = one_length(BECKETHAND_CONSTRAINTS_LIMIT);
    expect_zeros("constraints at their limit", d, BECKETHAND_CONSTRAINTS_UNREADABLE);
    d = c;
    d.references = zeros(BECKETHAND_REFERENCES_LIMIT + 1);
    expect_zeros("references too long", d, BECKETHAND_INPUT_TOO_LONG);
    d.references = zeros(17 * BECKETHAND_RECORD_SIZE);
    expect_zeros("17 records", d, BECKETHAND_INPUT_TOO_LONG);
    d.references = zeros(BECKETHAND_REFERENCES_LIMIT - 1);
    expect_zeros("5,119 bytes of records", d, BECKETHAND_REFERENCES_UNREADABLE);
    d.references = zeros(BECKETHAND_REFERENCES_LIMIT);
    for (size_t i = 0; i < 16; i++)
        put_record(d.references.at + i * BECKETHAND_RECORD_SIZE, BECKETHAND_DNS, "", i == 15 ? "a.b" : "c.d");
    expect("16 records, the last one matches", d, BECKETHAND_MATCH, 15, 0, 2, 5, 0);
}

static void order_of_answers(void) {
    struct certificate nothing = {{NULL, 0}, {NULL, 0}, {NULL, 0}, {NULL, 0}, {NULL, 0}};
    struct bytes dns = record(BECKETHAND_DNS, "", "a.b"), bad = record(BECKETHAND_DNS, "", "");
    expect_zeros("nothing at all", nothing, BECKETHAND_REFERENCES_UNREADABLE);
    struct certificate c = with("30 00", "", "30 00", bad);
    expect_zeros("6 before 3, 4 and 5", c, BECKETHAND_REFERENCES_UNREADABLE);
    c.san = zeros(BECKETHAND_SAN_LIMIT + 1);
    expect_zeros("7 before 6, 4 and 5", c, BECKETHAND_INPUT_TOO_LONG);
    expect_zeros("3 before 4 and 5", with("30 00", "", "30 00", dns), BECKETHAND_SAN_UNREADABLE);
    expect_zeros("4 before 5", with(S, "", "30 00", dns), BECKETHAND_SUBJECT_UNREADABLE);
    expect_zeros("no subject, and no SAN", with("", "", "", dns), BECKETHAND_SUBJECT_UNREADABLE);
    expect_zeros("5", with(S, J, "30 00", dns), BECKETHAND_CONSTRAINTS_UNREADABLE);
    expect_zeros("2", with(SRV, J, PERMITS_N, record(BECKETHAND_SRV, "m", "b.c")), BECKETHAND_CONSTRAINTS_BROKEN);
    expect_zeros("1", with(S, J, "", record(BECKETHAND_DNS, "", "a.c")), BECKETHAND_MISMATCH);
    expect("a subject without names", with(S, "30 00", "", dns), BECKETHAND_MATCH, 0, 0, 2, 5, 0);
}

#define SRV_OID "06 08 2B 06 01 05 05 07 08 07 "

static void unreadable_san(const char *name, const char *san) {
    expect_zeros(name, with(san, J, "", record(BECKETHAND_DNS, "", "a.b")), BECKETHAND_SAN_UNREADABLE);
}

static void unreadable_subject(const char *name, const char *subject) {
    expect_zeros(name, with(S, subject, "", record(BECKETHAND_DNS, "", "a.b")), BECKETHAND_SUBJECT_UNREADABLE);
}

static void unreadable_constraints(const char *name, const char *constraints) {
    expect_zeros(name, with(S, J, constraints, record(BECKETHAND_DNS, "", "a.b")), BECKETHAND_CONSTRAINTS_UNREADABLE);
}

/* what the header names as unreadable: two strings that are not DER, and DER that is outside the rules' grammar */
static void outside_the_grammar(void) {
    unreadable_san("a byte behind the element", S " 00");
    unreadable_subject("attributes out of order", "30 14 31 12 30 07 06 01 2A 0C 02 61 62 30 07 06 01 2A 0C 02 61 61");
    unreadable_san("an SRVName as UTF8String", "30 14 A0 12 " SRV_OID "A0 06 0C 04 5F 6D 2E 62");
    unreadable_san("an empty SRVName", "30 10 A0 0E " SRV_OID "A0 02 16 00");
    unreadable_san("a byte above 127", "30 03 82 01 80");
    unreadable_subject("an RDN without attributes", "30 02 31 00");
    unreadable_subject("a tag of two bytes", "30 0C 31 0A 30 08 06 03 55 04 03 1F 1F 00");
    unreadable_constraints("a minimum", "30 19 A0 17 30 15 A0 10 " SRV_OID "A0 04 16 02 5F 6D 80 01 01");
    unreadable_constraints("a minimum of 0", "30 19 A0 17 30 15 A0 10 " SRV_OID "A0 04 16 02 5F 6D 80 01 00");
    unreadable_constraints("a maximum", "30 19 A0 17 30 15 A0 10 " SRV_OID "A0 04 16 02 5F 6D 81 01 05");
    unreadable_constraints("a leading dot", "30 16 A0 14 30 12 A0 10 " SRV_OID "A0 04 16 02 2E 62");
    unreadable_constraints("a restriction as UTF8String", "30 16 A0 14 30 12 A0 10 " SRV_OID "A0 04 0C 02 5F 6D");
}

/* ---- records */

static void expect_record(const char *name, struct bytes b, size_t index, uint32_t answer, uint32_t kind, uint32_t service,
                          uint32_t domain) {
    cases++;
    check(name, "the answer", beckethand_record_answer(b.at, b.len, index) == answer);
    check(name, "the kind", beckethand_record_kind(b.at, b.len, index) == kind);
    check(name, "the service's length", beckethand_record_service_length(b.at, b.len, index) == service);
    check(name, "the domain's length", beckethand_record_domain_length(b.at, b.len, index) == domain);
}

static void expect_bad(const char *name, struct bytes b) { expect_record(name, b, 0, 6, 0, 0, 0); }

/* 2/13: "the last label of a domain may not be all digits", in a dNSName, a CN and a record */
static void addresses(void) {
    const char *address = "30 0A 82 08 31 30 2E 34 2E 30 2E 37", *wild = "30 07 82 05 2A 2E 61 2E 37";
    expect_zeros("10.4.0.7, DNS 10.4.0.7", with(address, J, "", record(BECKETHAND_DNS, "", "10.4.0.7")),
                 BECKETHAND_REFERENCES_UNREADABLE);
    expect_zeros("10.4.0.7, DNS a.b", with(address, J, "", record(BECKETHAND_DNS, "", "a.b")), BECKETHAND_MISMATCH);
    expect_zeros("10.4.0.7, CN a.b", with(address, J, "", record(BECKETHAND_CN, "", "a.b")), BECKETHAND_MISMATCH);
    expect("4.example",
           with("30 0B 82 09 34 2E 65 78 61 6D 70 6C 65", J, "", record(BECKETHAND_DNS, "", "4.example")), 0, 0, 0, 2, 11, 0);
    expect("a.7b", with("30 06 82 04 61 2E 37 62", J, "", record(BECKETHAND_DNS, "", "a.7b")), 0, 0, 0, 2, 6, 0);
    expect("a.0x7", with("30 07 82 05 61 2E 30 78 37", J, "", record(BECKETHAND_DNS, "", "a.0x7")), 0, 0, 0, 2, 7, 0);
    expect("*.4.example",
           with("30 0D 82 0B 2A 2E 34 2E 65 78 61 6D 70 6C 65", J, "", record(BECKETHAND_DNS, "", "a.4.example")), 0, 0, 0, 2, 13, 0);
    expect_zeros("*.a.7, DNS b.a.7", with(wild, J, "", record(BECKETHAND_DNS, "", "b.a.7")), BECKETHAND_REFERENCES_UNREADABLE);
    expect_zeros("*.a.7, CN a.b", with(wild, J, "", record(BECKETHAND_CN, "", "a.b")), BECKETHAND_MISMATCH);
    expect_zeros("7 and a.7 block a CN", with("30 08 82 01 37 82 03 61 2E 37", J, "", record(BECKETHAND_CN, "", "a.b")),
                 BECKETHAND_MISMATCH);
    expect_bad("SRV 10.4.0.7", record(BECKETHAND_SRV, "m", "10.4.0.7"));
    expect_bad("URI 10.4.0.7", record(BECKETHAND_URI, "m", "10.4.0.7"));
    expect_bad("CN 10.4.0.7", record(BECKETHAND_CN, "", "10.4.0.7"));
    expect_record("SRV 7, 4.a", record(BECKETHAND_SRV, "7", "4.a"), 0, 0, 2, 1, 3);
}

/* 2/13, in SRVNames, restrictions and URIs */
static void addresses_of_services(void) {
    /* `_m.10.4.0.7`, without constraints and where `_m` is permitted */
    const char *srv = "30 1B A0 19 06 08 2B 06 01 05 05 07 08 07 A0 0D 16 0B 5F 6D 2E 31 30 2E 34 2E 30 2E 37";
    expect_zeros("_m.10.4.0.7", with(srv, J, "", record(BECKETHAND_DNS, "", "a.b")), BECKETHAND_MISMATCH);
    expect_zeros("_m.10.4.0.7 under _m", with(srv, J, PERMITS, record(BECKETHAND_DNS, "", "a.b")), BECKETHAND_CONSTRAINTS_BROKEN);
    /* `_7.a.b` under `_7` */
    expect("_7.a.b under _7",
           with("30 16 A0 14 06 08 2B 06 01 05 05 07 08 07 A0 08 16 06 5F 37 2E 61 2E 62", J, PERMITS_7,
                record(BECKETHAND_SRV, "7", "a.b")),
           0, 0, 0, 2, 22, 0);
    /* the restrictions `10.4.0.7` and `_m.7` */
    const char *address = "30 1C A0 1A 30 18 A0 16 06 08 2B 06 01 05 05 07 08 07 A0 0A 16 08 31 30 2E 34 2E 30 2E 37";
    const char *of_service = "30 18 A1 16 30 14 A0 12 06 08 2B 06 01 05 05 07 08 07 A0 06 16 04 5F 6D 2E 37";
    unreadable_constraints("a restriction 10.4.0.7", address);
    unreadable_constraints("a restriction _m.7", of_service);
    expect_list("a restriction 10.4.0.7", from_hex(address), BECKETHAND_LIST_CONSTRAINTS, 2, 5, 0, NULL);
    expect_list("a restriction _m.7", from_hex(of_service), BECKETHAND_LIST_CONSTRAINTS, 2, 5, 0, NULL);
    /* the dNSName `10.4.0.7` is permitted */
    const char *dns = "30 0E A0 0C 30 0A 82 08 31 30 2E 34 2E 30 2E 37";
    unreadable_constraints("a dNSName restriction 10.4.0.7", dns);
    /* `x://10.4.0.7` and `x://a.b:7` */
    const char *uri = "30 0E 86 0C 78 3A 2F 2F 31 30 2E 34 2E 30 2E 37";
    expect_zeros("x://10.4.0.7, URI", with(uri, J, "", record(BECKETHAND_URI, "x", "a.b")), BECKETHAND_MISMATCH);
    expect_zeros("x://10.4.0.7, CN", with(uri, J, "", record(BECKETHAND_CN, "", "a.b")), BECKETHAND_MISMATCH);
    expect("x://a.b:7", with("30 0B 86 09 78 3A 2F 2F 61 2E 62 3A 37", J, "", record(BECKETHAND_URI, "x", "a.b")), 0, 0, 0, 2, 11, 0);
}

static void records(void) {
    struct bytes b = zeros(2 * BECKETHAND_RECORD_SIZE);
    put_record(b.at, BECKETHAND_SRV, "mail", "a.b");
    put_record(b.at + BECKETHAND_RECORD_SIZE, BECKETHAND_CN, "", "c.example");
    expect_record("record 0", b, 0, 0, 2, 4, 3);
    expect_record("record 1", b, 1, 0, 4, 0, 9);
    expect_record("past the last", b, 2, 0, 0, 0, 0);
    expect_record("far past the last", b, SIZE_MAX, 0, 0, 0, 0);
    put_record(b.at + BECKETHAND_RECORD_SIZE, BECKETHAND_CN, "", "c");
    expect_record("one label beside a good record", b, 0, 6, 0, 0, 0);
    put_record(b.at + BECKETHAND_RECORD_SIZE, BECKETHAND_CN, "", "c.example");
    b.at[1] = 1;
    expect_record("byte 1 is not 0", b, 1, 6, 0, 0, 0);
    expect_bad("no records", (struct bytes){NULL, 0});
    expect_record("too long", zeros(BECKETHAND_REFERENCES_LIMIT + 1), 0, 7, 0, 0, 0);
}

#define SIXTY "abcdefghijabcdefghijabcdefghijabcdefghijabcdefghijabcdefghij"

/* what a good record is, as the header says it */
static void good_and_bad_records(void) {
    const char *domain_253 = SIXTY "abc." SIXTY "abc." SIXTY "abc." SIXTY "a";
    expect_record("a domain of 253 bytes", record(BECKETHAND_DNS, "", domain_253), 0, 0, 1, 0, BECKETHAND_DOMAIN_SIZE);
    expect_record("a service of 62 bytes", record(BECKETHAND_SRV, SIXTY "ab", "b.c"), 0, 0, 2, 62, 3);
    expect_record("a scheme of 63 bytes", record(BECKETHAND_URI, SIXTY "+-.", "b.c"), 0, 0, 3, BECKETHAND_SERVICE_SIZE, 3);
    expect_bad("a domain of no bytes", record(BECKETHAND_DNS, "", ""));
    expect_bad("a trailing dot", record(BECKETHAND_DNS, "", "a.b."));
    expect_bad("an underscore", record(BECKETHAND_DNS, "", "_a.b"));
    expect_bad("a wildcard", record(BECKETHAND_DNS, "", "*.a.b"));
    expect_bad("DNS of one label", record(BECKETHAND_DNS, "", "b"));
    expect_bad("DNS of one longer label", record(BECKETHAND_DNS, "", "example"));
    expect_bad("SRV of one label", record(BECKETHAND_SRV, "m", "b"));
    expect_bad("URI of one label", record(BECKETHAND_URI, "m", "b"));
    expect_bad("CN of one label", record(BECKETHAND_CN, "", "b"));
    expect_bad("a hyphen at an end", record(BECKETHAND_DNS, "", "a-.b"));
    expect_bad("a label of 64 bytes", record(BECKETHAND_DNS, "", SIXTY "abcd.b"));
    expect_bad("DNS with a service", record(BECKETHAND_DNS, "m", "b.c"));
    expect_bad("CN with a service", record(BECKETHAND_CN, "m", "b.c"));
    expect_bad("SRV without a service", record(BECKETHAND_SRV, "", "b.c"));
    expect_bad("a service with its underscore", record(BECKETHAND_SRV, "_m", "b.c"));
    expect_bad("a service of 63 bytes", record(BECKETHAND_SRV, SIXTY "abc", "b.c"));
    expect_bad("a scheme that begins with a digit", record(BECKETHAND_URI, "1a", "b.c"));
    expect_bad("kind 0", record(0, "", "a.b"));
    expect_bad("kind 5", record(5, "", "a.b"));
    struct bytes b = record(BECKETHAND_DNS, "", "a.b");
    b.at[BECKETHAND_AT_DOMAIN + 3] = 'c';
    expect_bad("a domain field that is not filled with zeros", b);
    b = record(BECKETHAND_DNS, "", domain_253);
    b.at[BECKETHAND_AT_DOMAIN_LENGTH] = BECKETHAND_DOMAIN_SIZE + 1;
    expect_bad("a domain's length of 254", b);
}

static void listings(void) {
    struct beckethand_row s = {2, 2, 5, 0}, j = {10, 4, 12, 0}, srv = {9, 2, 22, 0}, subtree = {9, 6, 18, 0};
    expect_list("S", from_hex(S), BECKETHAND_LIST_SAN, 3, 0, 1, &s);
    expect_list("S, no room", from_hex(S), BECKETHAND_LIST_SAN, 0, 8, 1, NULL);
    expect_list("J", from_hex(J), BECKETHAND_LIST_SUBJECT, 1, 0, 1, &j);
    expect_list("SRVName", from_hex(SRV), BECKETHAND_LIST_SAN, 2, 0, 1, &srv);
    expect_list("constraints", from_hex(PERMITS), BECKETHAND_LIST_CONSTRAINTS, 2, 0, 1, &subtree);
    expect_list("no SAN", from_hex(""), BECKETHAND_LIST_SAN, 2, 0, 0, NULL);
    expect_list("no constraints, no room", from_hex(""), BECKETHAND_LIST_CONSTRAINTS, 0, 0, 0, NULL);
    expect_list("no subject", from_hex(""), BECKETHAND_LIST_SUBJECT, 2, 4, 0, NULL);
    expect_list("30 00 as SAN", from_hex("30 00"), BECKETHAND_LIST_SAN, 2, 3, 0, NULL);
    expect_list("30 00 as subject", from_hex("30 00"), BECKETHAND_LIST_SUBJECT, 2, 0, 0, NULL);
    expect_list("30 00 as constraints", from_hex("30 00"), BECKETHAND_LIST_CONSTRAINTS, 2, 5, 0, NULL);
    expect_list("too long", zeros(BECKETHAND_SAN_LIMIT + 1), BECKETHAND_LIST_SAN, 2, 7, 0, NULL);
    expect_list("a length that is not shortest", from_hex("30 81 05 82 03 61 2E 62"), BECKETHAND_LIST_SAN, 4, 3, 0, NULL);
    expect_list("a byte after the SAN", from_hex("30 02 82 00 00"), BECKETHAND_LIST_SAN, 4, 3, 0, NULL);
}

/* fewer names than the four rows that are lent, as many, and more; groups; what stands out of order */
static void in_four_rows(void) {
    const struct beckethand_row three[] = {{2, 2, 3, 0}, {6, 5, 2, 1}, {7, 7, 4, 2}};
    const struct beckethand_row four[] = {{2, 2, 2, 0}, {2, 4, 2, 1}, {2, 6, 2, 2}, {2, 8, 2, 3}};
    const struct beckethand_row sets[] = {{12, 4, 8, 0}, {12, 12, 8, 0}, {12, 22, 8, 1}};
    const struct beckethand_row sides[] = {{2, 6, 2, 0}, {2, 12, 2, 1}, {1, 16, 2, 1}};
    expect_list("three entries", from_hex("30 09 82 01 61 86 00 87 02 FF FF"), BECKETHAND_LIST_SAN, 4, 0, 3, three);
    expect_list("four entries", from_hex("30 08 82 00 82 00 82 00 82 00"), BECKETHAND_LIST_SAN, 4, 0, 4, four);
    expect_list("five entries", from_hex("30 0A 82 00 82 00 82 00 82 00 82 00"), BECKETHAND_LIST_SAN, 4, 8, 5, NULL);
    expect_list("two sets",
                from_hex("30 1C 31 10 30 06 06 01 2A 0C 01 61 30 06 06 01 2A 0C 01 62 31 08 30 06 06 01 2A 05 01 62"),
                BECKETHAND_LIST_SUBJECT, 4, 0, 3, sets);
    expect_list("a set out of order", from_hex("30 12 31 10 30 06 06 01 2A 0C 01 62 30 06 06 01 2A 0C 01 61"), BECKETHAND_LIST_SUBJECT,
                4, 4, 0, NULL);
    expect_list("both sides", from_hex("30 10 A0 04 30 02 82 00 A1 08 30 02 82 00 30 02 81 00"), BECKETHAND_LIST_CONSTRAINTS, 4, 0, 3,
                sides);
    expect_list("sides out of order", from_hex("30 0C A1 04 30 02 82 00 A0 04 30 02 82 00"), BECKETHAND_LIST_CONSTRAINTS, 4, 5, 0, NULL);
}

/* a tag and a length in so many bytes; how many these are together */
static size_t put_header(uint8_t *at, uint8_t tag, size_t len, size_t form) {
    const uint8_t bytes[3][4] = {
        {tag, (uint8_t)len}, {tag, 0x81, (uint8_t)len}, {tag, 0x82, (uint8_t)(len >> 8), (uint8_t)len}};
    memcpy(at, bytes[form - 1], form + 1);
    return form + 1;
}

/* a dNSName whose length is in the form that DER asks for, or in another */
static void forms_of_lengths(void) {
    static const struct {
        size_t len, form;
        struct beckethand_row row; /* all zeros where the SAN is unreadable */
    } names[] = {
        {127, 1, {2, 3, 129, 0}}, {127, 2, {0}}, {128, 1, {0}}, {128, 2, {2, 3, 131, 0}}, {128, 3, {0}},
        {255, 2, {2, 4, 258, 0}}, {255, 3, {0}}, {256, 2, {0}}, {256, 3, {2, 4, 260, 0}},
    };
    for (size_t i = 0; i < sizeof names / sizeof *names; i++) {
        char name[40];
        size_t content = 1 + names[i].form + names[i].len;
        struct bytes b = zeros(4 + content);
        size_t at = put_header(b.at, 0x30, content, content < 128 ? 1 : content < 256 ? 2 : 3);
        b.len = at + content;
        at += put_header(b.at + at, 0x82, names[i].len, names[i].form);
        memset(b.at + at, 'a', names[i].len);
        snprintf(name, sizeof name, "a length of %zu in %zu bytes", names[i].len, names[i].form);
        bool good = names[i].row.kind != 0;
        expect_list(name, b, BECKETHAND_LIST_SAN, 4, good ? 0 : 3, good ? 1 : 0, &names[i].row);
    }
}

/* as many entries as 512 rows hold, and more */
static void many_rows(void) {
    static const size_t counts[] = {512, 513, 600};
    for (size_t k = 0; k < sizeof counts / sizeof *counts; k++) {
        size_t count = counts[k];
        struct beckethand_row rows[512];
        struct bytes b = zeros(4 + 2 * count);
        size_t at = put_header(b.at, 0x30, 2 * count, 3);
        for (size_t i = 0; i < count; i++)
            b.at[at + 2 * i] = 0x82;
        for (size_t i = 0; i < 512; i++)
            rows[i] = (struct beckethand_row){BECKETHAND_ROW_DNS, 4 + 2 * i, 2, i};
        expect_list("many entries", b, BECKETHAND_LIST_SAN, 512, count > 512 ? 8 : 0, count, rows);
    }
}

/* a row of every kind and group, by the header's names */
static void kinds_of_rows(void) {
    const struct beckethand_row entries[] = {
        {BECKETHAND_ROW_OTHER_NAME, 2, 9, 0},
        {BECKETHAND_ROW_EMAIL, 11, 3, 1},
        {BECKETHAND_ROW_DNS, 14, 3, 2},
        {BECKETHAND_ROW_X400_ADDRESS, 17, 2, 3},
        {BECKETHAND_ROW_DIRECTORY_NAME, 19, 4, 4},
        {BECKETHAND_ROW_EDI_PARTY_NAME, 23, 2, 5},
        {BECKETHAND_ROW_URI, 25, 3, 6},
        {BECKETHAND_ROW_IP_ADDRESS, 28, 6, 7},
        {BECKETHAND_ROW_REGISTERED_ID, 34, 3, 8},
        {BECKETHAND_ROW_SRV, 37, 20, 9},
    };
    expect_list("every kind in a SAN",
                from_hex("30 37 A0 07 06 01 2A A0 02 05 00 81 01 61 82 01 61 A3 00 A4 02 30 00 A5 00 86 01 61 87 04 7F 00 00 01"
                         " 88 01 2A A0 12 " SRV_OID "A0 06 16 04 5F 6D 2E 62"),
                BECKETHAND_LIST_SAN, 11, BECKETHAND_ACCEPTED, 10, entries);
    const struct beckethand_row attributes[] = {
        {BECKETHAND_ROW_CN, 4, 12, 0}, {BECKETHAND_ROW_OTHER_CN, 18, 11, 1}, {BECKETHAND_ROW_OTHER_ATTRIBUTE, 31, 10, 2}};
    expect_list("every kind in a subject",
                from_hex("30 27 31 0C 30 0A 06 03 55 04 03 0C 03 61 2E 62 31 0B 30 09 06 03 55 04 03 1E 02 00 61"
                         " 31 0A 30 08 06 03 55 04 0A 0C 01 61"),
                BECKETHAND_LIST_SUBJECT, 4, BECKETHAND_ACCEPTED, 3, attributes);
    const struct beckethand_row subtrees[] = {{BECKETHAND_ROW_SRV, 6, 18, BECKETHAND_PERMITTED},
                                              {BECKETHAND_ROW_DNS, 28, 3, BECKETHAND_EXCLUDED}};
    struct bytes both = from_hex("30 1D A0 14 30 12 A0 10 " SRV_OID "A0 04 16 02 5F 6D A1 05 30 03 82 01 62");
    expect_list("both groups in constraints", both, BECKETHAND_LIST_CONSTRAINTS, 2, BECKETHAND_ACCEPTED, 2, subtrees);
    expect_list("any number but 0 and 1 means constraints", both, SIZE_MAX, 1, BECKETHAND_TABLE_TOO_SHORT, 2, NULL);
}

/* one name in a string of so many bytes, behind these headers; the last header's length is filled in */
static struct bytes one_long_name(size_t len, const char *tags) {
    struct bytes b = zeros(len);
    size_t at = 0;
    memset(b.at, 'a', len);
    for (const char *t = tags; *t; t += 2, at += 4) {
        struct bytes tag = from_hex((char[]){t[0], t[1], 0});
        size_t content = len - at - 4;
        put_header(b.at + at, tag.at[0], content, 3);
    }
    return b;
}

/* a subject of so many bytes: one CN */
static struct bytes one_long_cn(size_t len) {
    static const uint8_t cn[] = {0x06, 0x03, 0x55, 0x04, 0x03};
    struct bytes b = one_long_name(len, "303130");
    memcpy(b.at + 12, cn, sizeof cn);
    put_header(b.at + 17, 0x0C, len - 21, 3);
    return b;
}

/* strings at their limits, and one byte past them */
static void longest(void) {
    const struct beckethand_row dns = {BECKETHAND_ROW_DNS, 4, 16380, 0}, cn = {BECKETHAND_ROW_CN, 8, 4088, 0};
    const struct beckethand_row uri = {BECKETHAND_ROW_URI, 12, 16372, BECKETHAND_EXCLUDED};
    expect_list("16,384 bytes", one_long_name(16384, "3082"), BECKETHAND_LIST_SAN, 4, 0, 1, &dns);
    expect_list("16,385 readable bytes", one_long_name(16385, "3082"), BECKETHAND_LIST_SAN, 4, 7, 0, NULL);
    expect_list("a subject of 4,096", one_long_cn(4096), BECKETHAND_LIST_SUBJECT, 4, 0, 1, &cn);
    expect_list("a subject of 4,097", one_long_cn(4097), BECKETHAND_LIST_SUBJECT, 4, 7, 0, NULL);
    expect_list("constraints of 16,384", one_long_name(16384, "30A13086"), BECKETHAND_LIST_CONSTRAINTS, 4, 0, 1, &uri);
    expect_list("constraints of 16,385", one_long_name(16385, "30A13086"), BECKETHAND_LIST_CONSTRAINTS, 4, 7, 0, NULL);
}

/* request 3/13 */
static void viewer(void) {
    const struct beckethand_row entries[] = {{2, 2, 5, 0}, {2, 7, 5, 1}};
    const struct beckethand_row attributes[] = {{12, 4, 10, 0}, {10, 14, 12, 0}, {11, 28, 10, 1}};
    const struct beckethand_row subtrees[] = {{9, 6, 18, 0}, {2, 28, 5, 1}, {9, 35, 17, 1}};
    struct bytes san = from_hex("30 0A 82 03 61 2E 62 82 03 62 2E 63");
    struct bytes subject = from_hex("30 24 31 16 30 08 06 03 55 04 0A 0C 01 6F 30 0A 06 03 55 04 03 0C 03 61 2E 62 31 0A 30 08 06 03"
                                    " 55 04 03 1E 01 78");
    struct bytes constraints = from_hex("30 32 A0 14 30 12 A0 10 " SRV_OID "A0 04 16 02 5F 6D A1 1A 30 05 82 03 61 2E 62 30 11 A0 0F "
                                        SRV_OID "A0 03 16 01 62");
    expect_list("two entries", san, BECKETHAND_LIST_SAN, 2, 0, 2, entries);
    expect_list("three attributes", subject, BECKETHAND_LIST_SUBJECT, 3, 0, 3, attributes);
    expect_list("three subtrees", constraints, BECKETHAND_LIST_CONSTRAINTS, 3, 0, 3, subtrees);
    expect_viewer("three subtrees, by another number", constraints, SIZE_MAX, 0);
    expect_viewer("a subject as a SAN", subject, BECKETHAND_LIST_SAN, BECKETHAND_SAN_UNREADABLE);
    check("positions from 0 to 2", "the first row", is_view(beckethand_view(san.at, san.len, 0, 2), &entries[0], 2));
    check("positions from 3 to 7", "the second row", is_view(beckethand_view(san.at, san.len, 0, 3), &entries[1], 3));
    check("position 8", "the end, unmoved", is_view(beckethand_view(san.at, san.len, 0, 8), NULL, 8));
    check("position 26", "a subtree's SEQUENCE", is_view(beckethand_view(constraints.at, constraints.len, 2, 26), &subtrees[1], 26));
    check("position 26", "a set's header", is_view(beckethand_view(subject.at, subject.len, 1, 26), &attributes[2], 26));
}

/* request 6/13 */

/* a string with one dNSName subtree, "+text" permitted or "-text" excluded; no bytes for ""; other bytes in hexadecimal */
static struct bytes string_of(const char *said) {
    size_t n = strlen(said);
    if (n == 0 || (said[0] != '+' && said[0] != '-'))
        return from_hex(said);
    struct bytes b = zeros(n + 7);
    const uint8_t headers[8] = {0x30, (uint8_t)(n + 5), said[0] == '+' ? 0xA0 : 0xA1, (uint8_t)(n + 3), 0x30, (uint8_t)(n + 1),
                                0x82, (uint8_t)(n - 1)};
    memcpy(b.at, headers, sizeof headers);
    memcpy(b.at + 8, said + 1, n - 1);
    return b;
}

/* the certificate with these constraints, end to end, the leaf's issuer first */
static struct certificate under(struct certificate c, size_t count, const struct bytes strings[]) {
    size_t all = 0, at = 0;
    for (size_t k = 0; k < count; k++)
        all += strings[k].len;
    c.constraints = zeros(all);
    c.lengths = zeros(2 * count);
    for (size_t k = 0; k < count; k++) {
        if (strings[k].len)
            memcpy(c.constraints.at + at, strings[k].at, strings[k].len);
        at += strings[k].len;
        c.lengths.at[2 * k] = (uint8_t)(strings[k].len >> 8);
        c.lengths.at[2 * k + 1] = (uint8_t)strings[k].len;
    }
    return c;
}

static struct certificate under_said(struct certificate c, size_t count, const char *const said[]) {
    struct bytes strings[9];
    for (size_t k = 0; k < count; k++)
        strings[k] = string_of(said[k]);
    return under(c, count, strings);
}

#define UNDER(c, ...) under_said(c, sizeof(const char *[]){__VA_ARGS__} / sizeof(char *), (const char *const[]){__VA_ARGS__})

/* a SAN of one dNSName */
static struct bytes dns_san(const char *text) {
    size_t n = strlen(text);
    struct bytes b = zeros(n + 4);
    memcpy(b.at, (uint8_t[]){0x30, (uint8_t)(n + 2), 0x82, (uint8_t)n}, 4);
    memcpy(b.at + 4, text, n);
    return b;
}

static void every_issuer(void) {
    struct certificate c = with(S, J, "", record(BECKETHAND_DNS, "", "a.b"));
    expect("+a.b, +b", UNDER(c, "+a.b", "+b"), 0, 0, 0, 2, 5, 0);
    expect("+a.b, +c", UNDER(c, "+a.b", "+c"), 2, 0, 0, 0, 0, 1);
    expect("seven empty strings, +c", UNDER(c, "", "", "", "", "", "", "", "+c"), 2, 0, 0, 0, 0, 7);
    expect("eight empty strings", UNDER(c, "", "", "", "", "", "", "", ""), 0, 0, 0, 2, 5, 0);
    expect_zeros("+c, then 30", UNDER(c, "+c", "30"), BECKETHAND_CONSTRAINTS_UNREADABLE);
    expect_zeros("30, then +c", UNDER(c, "30", "+c"), BECKETHAND_CONSTRAINTS_UNREADABLE);
    c.references = record(BECKETHAND_DNS, "", "");
    expect_zeros("nine empty strings: 7 before 6", UNDER(c, "", "", "", "", "", "", "", "", ""), BECKETHAND_INPUT_TOO_LONG);
    /* the entries `a.b` and `_m.b`: permitted `_n`, then +c; both in one string */
    c = with("30 19 82 03 61 2E 62 A0 12 " SRV_OID "A0 06 16 04 5F 6D 2E 62", J, "", record(BECKETHAND_DNS, "", "a.b"));
    expect("_n, then +c", UNDER(c, PERMITS_N, "+c"), 2, 0, 1, 0, 0, 0);
    expect("+c, then _n", UNDER(c, "+c", PERMITS_N), 2, 0, 0, 0, 0, 0);
    expect("_n and +c in one string", UNDER(c, "30 1B A0 19 30 12 A0 10 " SRV_OID "A0 04 16 02 5F 6E 30 03 82 01 63"), 2, 0, 0, 0, 0, 0);
}

/* 6/13: "From C each length is two bytes, high first; an odd count is 7", "a ninth, or lengths with another sum, is 7" */
static void lengths(void) {
    struct certificate c = UNDER(with(S, J, "", record(BECKETHAND_DNS, "", "a.b")), "+a.b");
    static const char *const wrong[] = {"0B 00", "00 0B 00", "0B", "00 0A", "00 0C", "", "00 0B 00 01", "00 05 00 05", "FF FF",
                                        "00 0B 00 00 00 00 00 00 00 00 00 00 00 00 00 00 00 00"};
    expect("a length of 11", c, 0, 0, 0, 2, 5, 0);
    c.lengths = from_hex("00 00 00 0B 00 00");
    expect("lengths 0, 11 and 0", c, 0, 0, 0, 2, 5, 0);
    for (size_t k = 0; k < sizeof wrong / sizeof *wrong; k++) {
        c.lengths = from_hex(wrong[k]);
        expect_zeros(wrong[k], c, BECKETHAND_INPUT_TOO_LONG);
    }
    c = with(S, J, "", record(BECKETHAND_DNS, "", "a.b"));
    c.lengths = from_hex("00 01");
    expect_zeros("a length without bytes", c, BECKETHAND_INPUT_TOO_LONG);
    c.lengths = from_hex("00");
    expect_zeros("one byte of lengths, and no constraints", c, BECKETHAND_INPUT_TOO_LONG);
}

/* 6/13: "each keeps its own length limit" */
static void long_strings(void) {
    struct certificate c = with(S, J, "", record(BECKETHAND_DNS, "", "a.b"));
    struct bytes strings[8];
    for (size_t k = 0; k < 8; k++)
        strings[k] = one_long_name(BECKETHAND_CONSTRAINTS_LIMIT, "30A03086");
    expect("eight strings of 16,384 bytes", under(c, 8, strings), 0, 0, 0, 2, 5, 0);
    strings[5] = one_long_name(BECKETHAND_CONSTRAINTS_LIMIT + 1, "30A03086");
    expect_zeros("one of 16,385", under(c, 8, strings), BECKETHAND_INPUT_TOO_LONG);
    strings[5] = from_hex("30");
    expect_zeros("one that is unreadable", under(c, 8, strings), BECKETHAND_CONSTRAINTS_UNREADABLE);
}

static void dns_restrictions(void) {
    struct certificate c = with(S, J, "", record(BECKETHAND_DNS, "", "a.b"));
    static const char *const bad[] = {"+.b", "+b.", "-*.b.c", "+7", "-a..b", "+_m.b", "-a_b"};
    for (size_t k = 0; k < sizeof bad / sizeof *bad; k++) {
        expect_zeros(bad[k], UNDER(c, bad[k]), BECKETHAND_CONSTRAINTS_UNREADABLE);
        expect_list(bad[k], string_of(bad[k]), BECKETHAND_LIST_CONSTRAINTS, 2, 5, 0, NULL);
    }
    const struct beckethand_row every = {BECKETHAND_ROW_DNS, 6, 2, BECKETHAND_EXCLUDED};
    expect_list("an empty text", string_of("-"), BECKETHAND_LIST_CONSTRAINTS, 2, 0, 1, &every);
    /* no DNS-ID: it breaks any dNSName subtree, and no SRVName subtree */
    static const char *const no_ids[] = {"", "*", "*.b", "10.4.0.7"};
    for (size_t k = 0; k < sizeof no_ids / sizeof *no_ids; k++) {
        c.san = dns_san(no_ids[k]);
        expect(no_ids[k], UNDER(c, "+"), 2, 0, 0, 0, 0, 0);
        expect(no_ids[k], UNDER(c, "-q.r"), 2, 0, 0, 0, 0, 0);
        expect_zeros(no_ids[k], UNDER(c, "30 16 A1 14 30 12 A0 10 " SRV_OID "A0 04 16 02 5F 6D"), BECKETHAND_MISMATCH);
    }
}

/* which subtrees a wildcard lies in, and which excluded ones it breaks */
static void wildcards(void) {
    struct certificate c = with("", J, "", record(BECKETHAND_DNS, "", "q.a.b"));
    static const char *const kept[] = {"+a.b", "+b", "+", "-y.x.a.b", "-xa.b"}, *const broken[] = {"+x.a.b", "-X.A.B", "-a.b", "-b", "-"};
    c.san = dns_san("*.a.b");
    for (size_t k = 0; k < sizeof kept / sizeof *kept; k++)
        expect(kept[k], UNDER(c, kept[k]), 0, 0, 0, 2, 7, 0);
    for (size_t k = 0; k < sizeof broken / sizeof *broken; k++)
        expect(broken[k], UNDER(c, "+A.B", broken[k]), 2, 0, 0, 0, 0, 1);
}

/* 6/13: "The CN stays free", and so do URIs */
static void free_names(void) {
    expect("a CN under -", UNDER(with("", J, "", record(BECKETHAND_CN, "", "a.b")), "-"), 0, 0, 0, 4, 12, 0);
    struct certificate c = with("30 09 86 07 78 3A 2F 2F 61 2E 62", J, "", record(BECKETHAND_URI, "x", "a.b"));
    expect("a URI under -", UNDER(c, "-"), 0, 0, 0, 2, 9, 0);
}

int main(void) {
    desk_examples();
    old_faults();
    one_label();
    long_labels();
    sizes();
    order_of_answers();
    outside_the_grammar();
    records();
    good_and_bad_records();
    addresses();
    addresses_of_services();
    listings();
    in_four_rows();
    forms_of_lengths();
    many_rows();
    kinds_of_rows();
    longest();
    viewer();
    every_issuer();
    lengths();
    long_strings();
    dns_restrictions();
    wildcards();
    free_names();
    writers();
    texts();
    printf("C: %d cases, %d failures\n", cases, failures);
    return failures != 0;
}
