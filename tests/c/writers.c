/* The writers: the examples of request 4/13. Buffer, texts, lengths and kinds each lie at the very end of a page that is followed by one
 * that may not be touched. */
#include <stdlib.h>
#include <string.h>

#include "desk.h"

typedef struct beckethand_written writer(uint8_t *, size_t, const uint8_t *, size_t, const size_t *, size_t, const uint8_t *, size_t);

struct list {
    struct bytes texts;
    const size_t *lengths;
    size_t lengths_count;
    const uint8_t *kinds;
    size_t kinds_count;
};

#define LENGTHS(...) (const size_t[]){__VA_ARGS__}, sizeof((size_t[]){__VA_ARGS__}) / sizeof(size_t)
#define KINDS(...) (const uint8_t[]){__VA_ARGS__}, sizeof((uint8_t[]){__VA_ARGS__})
#define NONE NULL, 0

static struct bytes text(const char *s) {
    return (struct bytes){(uint8_t *)s, strlen(s)};
}

static struct list one(uint8_t kind, struct bytes t) {
    uint8_t *kinds = malloc(1);
    size_t *lengths = malloc(sizeof *lengths);
    if (!kinds || !lengths)
        abort();
    *kinds = kind;
    *lengths = t.len;
    return (struct list){t, lengths, 1, kinds, 1};
}

/* a list of one record */
static struct list of(uint8_t kind, const char *service, const char *domain) {
    size_t s = strlen(service), d = strlen(domain);
    struct bytes both = zeros(s + d);
    struct list l = one(kind, both);
    size_t *lengths = malloc(2 * sizeof *lengths);
    if (!lengths)
        abort();
    memcpy(both.at, service, s);
    memcpy(both.at + s, domain, d);
    lengths[0] = s;
    lengths[1] = d;
    l.lengths = lengths;
    l.lengths_count = 2;
    return l;
}

/* asks a writer with a buffer of so many bytes EE; the result, where there is one, is these bytes */
static void expect(const char *name, writer *write, struct list l, size_t lent, size_t answer, size_t length, const uint8_t *result) {
    struct bytes lengths = {(uint8_t *)l.lengths, l.lengths_count * sizeof(size_t)};
    struct bytes kinds = {(uint8_t *)l.kinds, l.kinds_count};
    struct bytes buffer = zeros(lent);
    cases++;
    memset(buffer.at, 0xEE, lent);
    buffer = guarded(buffer);
    l.texts = guarded(l.texts);
    struct beckethand_written w = write(buffer.at, lent, l.texts.at, l.texts.len, (const size_t *)guarded(lengths).at,
                                        l.lengths_count, guarded(kinds).at, l.kinds_count);
    check(name, "answer", w.answer == answer);
    check(name, "length", w.length == length);
    if (w.answer == 0 && result && w.length <= lent)
        check(name, "result", memcmp(buffer.at, result, w.length) == 0);
    for (size_t i = w.answer == 0 ? w.length : 0; i < lent; i++)
        check(name, "a byte past the result", buffer.at[i] == 0xEE);
}

static void san(const char *name, struct list l, size_t lent, size_t answer, size_t length, const char *hex) {
    expect(name, beckethand_write_san, l, lent, answer, length, hex ? from_hex(hex).at : NULL);
}

/* the records that a list asks for */
static const uint8_t *laid_out(struct list l) {
    uint8_t *at = zeros(l.kinds_count * BECKETHAND_RECORD_SIZE).at, *records = at;
    const uint8_t *from = l.texts.at;
    for (size_t i = 0; i < l.kinds_count; i++, at += BECKETHAND_RECORD_SIZE) {
        size_t service = l.lengths[2 * i], domain = l.lengths[2 * i + 1];
        memcpy(at, (uint8_t[]){l.kinds[i], 0, (uint8_t)service, (uint8_t)domain}, 4);
        memcpy(at + BECKETHAND_AT_SERVICE, from, service);
        memcpy(at + BECKETHAND_AT_DOMAIN, from + service, domain);
        from += service + domain;
    }
    return records;
}

static void record(const char *name, struct list l, size_t lent, size_t answer) {
    if (answer == BECKETHAND_ACCEPTED)
        expect(name, beckethand_write_records, l, lent, answer, l.kinds_count * BECKETHAND_RECORD_SIZE, laid_out(l));
    else
        expect(name, beckethand_write_records, l, lent, answer, 0, NULL);
}

static void refused_by_both(const char *name, struct list l, size_t answer) {
    san(name, l, 400, answer, 0, NULL);
    record(name, l, 400, answer);
}

static void lists(void) {
    struct list three = {text("a.b_m.b.csip://a.b"), LENGTHS(3, 6, 9), KINDS(1, 2, 3)};
    const char *hex = "30 26 82 03 61 2E 62 A0 14 06 08 2B 06 01 05 05 07 08 07 A0 08 16 06 5F 6D 2E 62 2E 63 86 09 73 69 70 3A 2F 2F"
                      " 61 2E 62";
    san("three names", three, 50, BECKETHAND_ACCEPTED, 40, hex);
    san("three names, just enough", three, 40, BECKETHAND_ACCEPTED, 40, hex);
    san("three names, a byte short", three, 39, BECKETHAND_BUFFER_TOO_SHORT, 0, NULL);
    san("three names, no buffer", three, 0, BECKETHAND_BUFFER_TOO_SHORT, 0, NULL);
    refused_by_both("no kinds", (struct list){text("a.b"), LENGTHS(3), NONE}, BECKETHAND_EMPTY_LIST);
    refused_by_both("nothing", (struct list){text(""), NONE, NONE}, BECKETHAND_EMPTY_LIST);
    refused_by_both("no lengths", (struct list){text("a.b"), NONE, KINDS(1)}, BECKETHAND_NOT_A_NAME);
    refused_by_both("a length of 0 behind", (struct list){text("a.b"), LENGTHS(3, 0), KINDS(1)}, BECKETHAND_NOT_A_NAME);
    refused_by_both("a sum that wraps", (struct list){text("a.b"), LENGTHS(SIZE_MAX, 4), KINDS(1, 1)}, BECKETHAND_NOT_A_NAME);
    refused_by_both("a record's sum that wraps", (struct list){text("a.b"), LENGTHS(SIZE_MAX, 4), KINDS(1)}, BECKETHAND_NOT_A_NAME);
    san("a length of 2 for a.b", (struct list){text("a.b"), LENGTHS(2), KINDS(1)}, 400, BECKETHAND_NOT_A_NAME, 0, NULL);
    record("three lengths", (struct list){text("a.b"), LENGTHS(0, 3, 0), KINDS(1)}, 400, BECKETHAND_NOT_A_NAME);
}

static void names(void) {
    san("a.b in 6 bytes", one(1, text("a.b")), 6, BECKETHAND_BUFFER_TOO_SHORT, 0, NULL);
    san("a.b in 7 bytes", one(1, text("a.b")), 7, BECKETHAND_ACCEPTED, 7, "30 05 82 03 61 2E 62");
    san("b", one(1, text("b")), 9, BECKETHAND_ACCEPTED, 5, "30 03 82 01 62");
    san("*.b.c", one(1, text("*.b.c")), 9, BECKETHAND_ACCEPTED, 9, "30 07 82 05 2A 2E 62 2E 63");
    san("case is kept", one(1, text("A.b")), 9, BECKETHAND_ACCEPTED, 7, "30 05 82 03 41 2E 62");
    san("case is kept in an SRVName", one(2, text("_M.b.C")), 40, BECKETHAND_ACCEPTED, 24,
        "30 16 A0 14 06 08 2B 06 01 05 05 07 08 07 A0 08 16 06 5F 4D 2E 62 2E 43");
    san("a bad text behind a good one", (struct list){text("a.b-"), LENGTHS(3, 1), KINDS(1, 1)}, 400, BECKETHAND_NOT_A_NAME, 0, NULL);
    san("*.b", one(1, text("*.b")), 400, BECKETHAND_NOT_A_NAME, 0, NULL);
    san("10.4.0.7", one(1, text("10.4.0.7")), 400, BECKETHAND_NOT_A_NAME, 0, NULL);
    san("an empty text", one(1, text("")), 400, BECKETHAND_NOT_A_NAME, 0, NULL);
    san("an SRVName without _", one(2, text("circulation.library.example")), 400, BECKETHAND_NOT_A_NAME, 0, NULL);
    san("an SRVName without a domain", one(2, text("_circulation")), 400, BECKETHAND_NOT_A_NAME, 0, NULL);
    san("an SRVName with _tcp", one(2, text("_circulation._tcp.library.example")), 400, BECKETHAND_NOT_A_NAME, 0, NULL);
    san("a misspelled SRVName that is an SRV-ID", one(2, text("_circulatoin.library.example")), 46, BECKETHAND_ACCEPTED, 46, NULL);
    san("kind 0", one(0, text("a.b")), 400, BECKETHAND_NOT_A_NAME, 0, NULL);
    san("kind 4", one(BECKETHAND_CN, text("a.b")), 400, BECKETHAND_NOT_A_NAME, 0, NULL);
    san("kind 255", one(255, text("a.b")), 400, BECKETHAND_NOT_A_NAME, 0, NULL);
    san("C3 A9 in a path", one(3, text("sip://a.b/\xC3\xA9")), 400, BECKETHAND_NOT_A_NAME, 0, NULL);
    san("FF before the at sign", one(3, text("sip://\xFF@a.b")), 400, BECKETHAND_NOT_A_NAME, 0, NULL);
}

/* an SRVName of so many bytes: a service of 1 or 62 bytes, and labels of at most 60 */
static struct bytes srv_name(size_t len) {
    struct bytes b = zeros(len);
    size_t service = len > 255 ? 62 : 1;
    memset(b.at, 'm', len);
    b.at[0] = '_';
    b.at[1 + service] = '.';
    for (size_t i = 2 + service + 60; i + 1 < len; i += 61)
        b.at[i] = '.';
    return b;
}

static struct bytes uri(size_t len) {
    struct bytes b = zeros(len);
    memset(b.at, 'x', len);
    memcpy(b.at, "sip://a.b/", 10);
    return b;
}

static void sizes(void) {
    const size_t srv[][2] = {{113, 132}, {114, 134}, {125, 145}, {126, 147}, {127, 148}, {128, 150}, {317, 343}};
    for (size_t i = 0; i < sizeof srv / sizeof *srv; i++) {
        san("an SRVName", one(2, srv_name(srv[i][0])), srv[i][1], BECKETHAND_ACCEPTED, srv[i][1], NULL);
        san("an SRVName, a byte short", one(2, srv_name(srv[i][0])), srv[i][1] - 1, BECKETHAND_BUFFER_TOO_SHORT, 0, NULL);
    }
    san("16,384 bytes", one(3, uri(16376)), 16384, BECKETHAND_ACCEPTED, 16384, NULL);
    san("16,385 bytes", one(3, uri(16377)), 16385, BECKETHAND_RESULT_TOO_LONG, 0, NULL);
    san("16,385 bytes, no buffer", one(3, uri(16377)), 0, BECKETHAND_RESULT_TOO_LONG, 0, NULL);
    san("70,000 bytes", one(3, uri(70000)), 0, BECKETHAND_RESULT_TOO_LONG, 0, NULL);
    struct bytes and_bad = uri(70001);
    and_bad.at[70000] = '-';
    san("70,000 bytes and -", (struct list){and_bad, LENGTHS(70000, 1), KINDS(3, 1)}, 0, BECKETHAND_NOT_A_NAME, 0, NULL);
}

static void written_records(void) {
    struct bytes blank = zeros(BECKETHAND_RECORD_SIZE);
    memcpy(blank.at, (uint8_t[]){BECKETHAND_SRV, 0, 3, 3}, 4);
    memcpy(blank.at + BECKETHAND_AT_SERVICE, "SIp", 3);
    memcpy(blank.at + BECKETHAND_AT_DOMAIN, "a.B", 3);
    expect("an SRV record", beckethand_write_records, of(2, "SIp", "a.B"), 322, BECKETHAND_ACCEPTED, 320, blank.at);
    record("an SRV record, just enough", of(2, "sip", "a.b"), 320, BECKETHAND_ACCEPTED);
    record("an SRV record, a byte short", of(2, "sip", "a.b"), 319, BECKETHAND_BUFFER_TOO_SHORT);
    record("a DNS record", of(1, "", "a.b"), 320, BECKETHAND_ACCEPTED);
    record("a CN record", of(4, "", "a.b"), 320, BECKETHAND_ACCEPTED);
    record("a URI record", of(3, "sip", "a.b"), 320, BECKETHAND_ACCEPTED);
    record("two records", (struct list){text("a.bmc.d"), LENGTHS(0, 3, 1, 3), KINDS(1, 2)}, 650, BECKETHAND_ACCEPTED);
    record("a record of b", of(1, "", "b"), 400, BECKETHAND_NOT_A_NAME);
    record("a record of *.b.c", of(1, "", "*.b.c"), 400, BECKETHAND_NOT_A_NAME);
    record("a record of 10.4.0.7", of(1, "", "10.4.0.7"), 400, BECKETHAND_NOT_A_NAME);
    record("a DNS record with a service", of(1, "m", "a.b"), 400, BECKETHAND_NOT_A_NAME);
    record("kind 0", of(0, "", "a.b"), 400, BECKETHAND_NOT_A_NAME);
    record("kind 5", of(5, "", "a.b"), 400, BECKETHAND_NOT_A_NAME);
}

static void fields(void) {
    char service[65], domain[256];
    memset(service, 'a', 64);
    memset(domain, 'a', 255);
    for (size_t i = 60; i < 250; i += 61)
        domain[i] = '.';
    service[64] = domain[254] = 0;
    record("a service of 64", of(3, service, "a.b"), 400, BECKETHAND_NOT_A_NAME);
    record("a domain of 254", of(1, "", domain), 400, BECKETHAND_NOT_A_NAME);
    service[63] = domain[253] = 0;
    record("a scheme of 63", of(3, service, "a.b"), 320, BECKETHAND_ACCEPTED);
    record("a service of 63", of(2, service, "a.b"), 400, BECKETHAND_NOT_A_NAME);
    record("a domain of 253", of(1, "", domain), 320, BECKETHAND_ACCEPTED);
}

/* so many DNS records `a.b`, the last one perhaps `a.-` */
static struct list many(size_t count, bool bad) {
    struct list l = {zeros(3 * count), NULL, 2 * count, NULL, count};
    size_t *lengths = calloc(2 * count, sizeof *lengths);
    struct bytes kinds = zeros(count);
    if (!lengths)
        abort();
    for (size_t i = 0; i < count; i++) {
        memcpy(l.texts.at + 3 * i, bad && i + 1 == count ? "a.-" : "a.b", 3);
        lengths[2 * i + 1] = 3;
        kinds.at[i] = BECKETHAND_DNS;
    }
    l.lengths = lengths;
    l.kinds = kinds.at;
    return l;
}

static void many_records(void) {
    record("16 records", many(16, false), 5120, BECKETHAND_ACCEPTED);
    record("16 records, a byte short", many(16, false), 5119, BECKETHAND_BUFFER_TOO_SHORT);
    record("17 records", many(17, false), 0, BECKETHAND_RESULT_TOO_LONG);
    record("17 records, one bad", many(17, true), 0, BECKETHAND_NOT_A_NAME);
}

/* what is written is read by the other calls, and matches */
static void read_back(void) {
    uint8_t names[64], references[640];
    const uint8_t subject[] = {0x30, 0x00};
    struct list l = {text("a.b_m.b.c"), LENGTHS(3, 6), KINDS(1, 2)};
    struct list r = {text("xa.bmB.C"), LENGTHS(1, 3, 1, 3), KINDS(3, 2)};
    struct beckethand_written s = beckethand_write_san(names, sizeof names, l.texts.at, l.texts.len, l.lengths, l.lengths_count, l.kinds,
                                                       l.kinds_count);
    struct beckethand_written w = beckethand_write_records(references, sizeof references, r.texts.at, r.texts.len, r.lengths,
                                                           r.lengths_count, r.kinds, r.kinds_count);
    cases++;
    check("read back", "listed", beckethand_list(NULL, 0, names, s.length, BECKETHAND_LIST_SAN).count == 2);
    check("read back", "records", beckethand_record_answer(references, w.length, 0) == BECKETHAND_ACCEPTED);
    struct beckethand_verdict v = beckethand_verdict(names, s.length, subject, 2, NULL, 0, NULL, 0, references, w.length);
    check("read back", "match", beckethand_is_match(v.answer));
    check("read back", "reference", v.reference == 1);
    check("read back", "presented", v.presented == 1);
}

void writers(void) {
    lists();
    names();
    sizes();
    written_records();
    fields();
    many_records();
    read_back();
}
