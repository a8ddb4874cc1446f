/* beckethand: does a certificate name the server that we mean?
 *
 * A TLS library that has checked a certificate's signatures, dates and name constraints of all other forms asks here, before anything
 * is sent, whether the certificate's names match the names that the caller expects (RFC 6125), and whether its SRVNames and dNSNames
 * keep to the name constraints of every CA above it (RFC 4985, RFC 5280). Both are narrowed by rules of our own, which docs/RULES.md
 * says whole.
 *
 * INPUTS. Five byte strings, each a pointer and a length. As many bytes as the length says must be there to be read; where it is 0 the
 * pointer may be NULL. Nothing else has to be checked first: every call answers for any bytes at all, reads nothing outside them,
 * allocates nothing and keeps nothing. The five may overlap one another; none may change while a call runs.
 *
 *   san          the value of the subjectAltName extension, a DER SEQUENCE; empty if the certificate has none
 *   subject      the subject, a DER Name. A certificate always has one: a subject without names is the two bytes 30 00
 *   constraints  the values of the nameConstraints extensions, each a DER SEQUENCE, of EVERY CA in the path, end to end with nothing
 *                between: first that of the CA that issued the certificate, then that of its issuer, and so on; at most 8. A CA
 *                without the extension has the empty value. All of them must hold
 *   lengths      the lengths of those values, in the same order, two bytes for each, high byte first; they add up to the length of
 *                constraints. No bytes where there are no values
 *   references   our reference records, 1 to 16 of them, 320 bytes each, end to end: see RECORDS
 *
 * Longest inputs in bytes: san 16,384; subject 4,096; each of the constraints 16,384; references 5,120.
 *
 * So constraints and lengths are laid down, from values[0] to values[n - 1]:
 *
 *   uint8_t constraints[BECKETHAND_MOST_ISSUERS * BECKETHAND_CONSTRAINTS_LIMIT], lengths[2 * BECKETHAND_MOST_ISSUERS];
 *   size_t end = 0;
 *   for (size_t k = 0; k < n; k++) {
 *       if (k == BECKETHAND_MOST_ISSUERS || values[k].size > BECKETHAND_CONSTRAINTS_LIMIT)
 *           return BECKETHAND_INPUT_TOO_LONG;
 *       for (size_t i = 0; i < values[k].size; i++)
 *           constraints[end++] = values[k].bytes[i];
 *       lengths[2 * k] = (uint8_t)(values[k].size >> 8);
 *       lengths[2 * k + 1] = (uint8_t)values[k].size;
 *   }
 *   answer = beckethand_answer(san, san_len, subject, subject_len, constraints, end, lengths, 2 * n, references, references_len);
 *
 * ANSWERS, and what a kiosk should do. 0 is a match and 1 is not, the reverse of OpenSSL's X509_check_host: ask beckethand_is_match. A
 * verdict that is not filled in yet starts as BECKETHAND_MISMATCH, and not as zeroed memory, which would be a match.
 *
 *   0  match                          go on
 *   1  mismatch                       do not send: no presented name matches a reference
 *   2  constraints broken             do not send: an SRVName or a dNSName breaks the constraints of a CA, which may not give that
 *                                     name; report the certificate
 *   3  san unreadable                 do not send: report the certificate
 *   4  subject unreadable             do not send: report the certificate
 *   5  constraints unreadable         do not send: report the CA's certificate
 *   6  references unreadable          do not send: our own records are wrong; repair the kiosk's settings
 *   7  an input is too long           do not send: report the certificate, or shorten the records. Also where there are more than 8
 *                                     lengths, where they do not add up to the constraints' bytes, and where the lengths have an
 *                                     odd count of bytes: then correct the call
 *   8  table too short                only from beckethand_list: lend as many rows as its count says
 *
 * The answers of the writers, 21 to 24, are said at THE WRITERS. For logs, beckethand_answer_text has each answer's meaning as a text.
 *
 * The first of these that applies is given: 7, then 6, 3, 4, 5, 2, and else 0 or 1. So an empty subject (length 0) is answered with
 * 4 where nothing is too long, the records are good and the san is absent or readable; else with 7, 6 or 3.
 *
 * Unreadable (3, 4, 5) means: damaged; or not DER (a length that is not the shortest, a byte behind the string's element, the
 * attributes of an RDN out of order); or readable DER that is outside the rules' grammar, for instance
 *
 *   san          an SRVName as UTF8String, or an empty one; a byte above 127 in an email address, a dNSName or a URI; no name
 *   subject      an RDN without attributes; a value whose tag has more than one byte
 *   constraints  a subtree with a minimum or a maximum, a minimum of 0 that is written out among them; an SRVName as UTF8String; an
 *                SRVName restriction that is not _service, _service.domain or domain; a dNSName restriction that is not empty and not
 *                a domain; each such as one with a leading dot, or one whose last label is all digits; neither a permitted nor an
 *                excluded subtree
 *
 * RECORDS. A good record is 320 bytes:
 *
 *   byte 0          kind: 1 DNS, 2 SRV, 3 URI, 4 CN
 *   byte 1          0
 *   byte 2          the service's length; 0 for DNS and CN
 *   byte 3          the domain's length
 *   bytes 4 to 66   SRV: the service, without its "_": 1 to 62 letters, digits and hyphens, no hyphen at either end.
 *                   URI: the scheme, without its ":": 1 to 63 bytes, a letter and then letters, digits, "+", "-" and "."
 *   bytes 67 to 319 the domain: at most 253 bytes, two or more labels joined by single dots; a label is 1 to 63 letters, digits and
 *                   hyphens, no hyphen at either end. So no trailing dot, no "_" and no "*"; international names as xn-- labels.
 *                   The last label is not all digits: a server is named, and not given by its address
 *
 * What the service and the domain leave free of their fields is 0. Letters are those of ASCII, of either case. One record that is
 * not good, no record at all, or a length that is no multiple of 320 makes all of them unreadable (6); more than 5,120 bytes are 7.
 *
 * WILDCARDS. A dNSName or a CN may begin with "*.", which stands for one whole label, and then has two labels or more behind it:
 * "*.branch.example" matches a reference "desk.branch.example", and "*.example" matches none.
 *
 * CONSTRAINTS. Where a CA's constraints have any dNSName subtree, each dNSName must be a domain, or a wildcard as above, must break no
 * excluded subtree and, if any is permitted, must lie in one of these; and the same of SRVNames. A dNSName lies in a subtree, and breaks
 * it if it is excluded, where the subtree's labels are its last labels, in either case of letters; an empty subtree holds every name. The
 * star of a wildcard is a label like others here: "*.a.b" lies in "a.b" and in "b", and not in "x.a.b". But it could stand for x, so it
 * also breaks an excluded "x.a.b", or any other excluded subtree of one label and then "a.b"; it does not break an excluded "y.x.a.b".
 * The subject's CN and URIs are not constrained; with records of these kinds the caller holds what they match against the constraints, as
 * names_judge of examples/kiosk does. Subtrees of other forms are read and passed over.
 *
 * ADDRESSES. A domain whose last label is all digits, as in "10.4.0.7", is none: such a dNSName, SRVName, URI or CN matches nothing,
 * and such an SRVName or dNSName breaks any constraints of its form (2). Other labels are not judged so: "4.example" and "a.7b" are
 * domains.
 */
#ifndef BECKETHAND_H
#define BECKETHAND_H

#include <stddef.h>
#include <stdint.h>

/* The compiler warns of a call whose result is dropped, where it has a way to. */
#ifdef __GNUC__
#define BECKETHAND_MUST_USE __attribute__((warn_unused_result))
#else
#define BECKETHAND_MUST_USE
#endif

#ifdef __cplusplus
extern "C" {
#endif

/* The version of this header: major * 10000 + minor * 100 + patch, so 10100 is 1.1.0; #if can compare it. The first number changes where
 * a program that calls it has to be changed, the second where calls or answers are added or changed, the third otherwise. */
#define BECKETHAND_VERSION 10100

/* beckethand_version gives the version of the archive that is linked. If it is not BECKETHAND_VERSION, then the program was compiled with
 * the header of another archive. */
BECKETHAND_MUST_USE
uint32_t beckethand_version(void);

/* the answers of a verdict */
#define BECKETHAND_MATCH 0
#define BECKETHAND_MISMATCH 1
#define BECKETHAND_CONSTRAINTS_BROKEN 2
#define BECKETHAND_SAN_UNREADABLE 3
#define BECKETHAND_SUBJECT_UNREADABLE 4
#define BECKETHAND_CONSTRAINTS_UNREADABLE 5
#define BECKETHAND_REFERENCES_UNREADABLE 6
#define BECKETHAND_INPUT_TOO_LONG 7

/* the answers of a listing and of the record reader: this 0, or one of the above; 8 is a listing's alone. The writers answer this 0 too */
#define BECKETHAND_ACCEPTED 0
#define BECKETHAND_TABLE_TOO_SHORT 8

/* the longest inputs, in bytes */
#define BECKETHAND_SAN_LIMIT 16384
#define BECKETHAND_SUBJECT_LIMIT 4096
#define BECKETHAND_CONSTRAINTS_LIMIT 16384 /* of each CA */
#define BECKETHAND_REFERENCES_LIMIT 5120

/* the most CAs whose constraints are handed over */
#define BECKETHAND_MOST_ISSUERS 8

/* a reference record: its size, where its fields begin, the sizes of the two fields that hold texts, and the kinds in byte 0 */
#define BECKETHAND_RECORD_SIZE 320
#define BECKETHAND_AT_KIND 0
#define BECKETHAND_AT_SERVICE_LENGTH 2
#define BECKETHAND_AT_DOMAIN_LENGTH 3
#define BECKETHAND_AT_SERVICE 4
#define BECKETHAND_AT_DOMAIN 67
#define BECKETHAND_SERVICE_SIZE 63
#define BECKETHAND_DOMAIN_SIZE 253

#define BECKETHAND_DNS 1
#define BECKETHAND_SRV 2
#define BECKETHAND_URI 3
#define BECKETHAND_CN 4

/* beckethand_answer gives the answer, 0 to 7. */
BECKETHAND_MUST_USE
uint32_t beckethand_answer(const uint8_t *san, size_t san_len, const uint8_t *subject, size_t subject_len,
                           const uint8_t *constraints, size_t constraints_len, const uint8_t *lengths, size_t lengths_len,
                           const uint8_t *references, size_t references_len);

/* beckethand_reference gives the index, from 0, of the record that matches: the lowest one that matches any name. 0 on any answer
 * but 0. */
BECKETHAND_MUST_USE
uint32_t beckethand_reference(const uint8_t *san, size_t san_len, const uint8_t *subject, size_t subject_len,
                              const uint8_t *constraints, size_t constraints_len, const uint8_t *lengths, size_t lengths_len,
                              const uint8_t *references, size_t references_len);

/* beckethand_presented gives, on answer 0, the index of the name that the record matches, the lowest one: the entry's index in the
 * SAN, or the RDN's index in the subject for a CN record. On answer 2, the index of the first SAN entry that breaks the
 * constraints of the CA that beckethand_issuer gives. Else 0. */
BECKETHAND_MUST_USE
uint32_t beckethand_presented(const uint8_t *san, size_t san_len, const uint8_t *subject, size_t subject_len,
                              const uint8_t *constraints, size_t constraints_len, const uint8_t *lengths, size_t lengths_len,
                              const uint8_t *references, size_t references_len);

/* beckethand_start and beckethand_length give, on answer 0, where that name's whole DER element lies: the GeneralName in the SAN,
 * or the attribute's SEQUENCE in the subject for a CN record. Else 0. */
BECKETHAND_MUST_USE
uint32_t beckethand_start(const uint8_t *san, size_t san_len, const uint8_t *subject, size_t subject_len,
                          const uint8_t *constraints, size_t constraints_len, const uint8_t *lengths, size_t lengths_len,
                          const uint8_t *references, size_t references_len);
BECKETHAND_MUST_USE
uint32_t beckethand_length(const uint8_t *san, size_t san_len, const uint8_t *subject, size_t subject_len,
                           const uint8_t *constraints, size_t constraints_len, const uint8_t *lengths, size_t lengths_len,
                           const uint8_t *references, size_t references_len);

/* beckethand_text_start and beckethand_text_length give, on answer 0, where that name's text lies, in the subject for a CN record
 * and in the SAN for any other: the content of the dNSName or URI, of the SRVName's IA5String, of the CN's value. Else 0. */
BECKETHAND_MUST_USE
uint32_t beckethand_text_start(const uint8_t *san, size_t san_len, const uint8_t *subject, size_t subject_len,
                               const uint8_t *constraints, size_t constraints_len, const uint8_t *lengths, size_t lengths_len,
                               const uint8_t *references, size_t references_len);
BECKETHAND_MUST_USE
uint32_t beckethand_text_length(const uint8_t *san, size_t san_len, const uint8_t *subject, size_t subject_len,
                                const uint8_t *constraints, size_t constraints_len, const uint8_t *lengths, size_t lengths_len,
                                const uint8_t *references, size_t references_len);

/* beckethand_issuer gives, on answer 2, the index, from 0, of the first CA whose constraints are broken, in the order of the lengths: 0 is
 * the CA that issued the certificate. Else 0. */
BECKETHAND_MUST_USE
uint32_t beckethand_issuer(const uint8_t *san, size_t san_len, const uint8_t *subject, size_t subject_len,
                           const uint8_t *constraints, size_t constraints_len, const uint8_t *lengths, size_t lengths_len,
                           const uint8_t *references, size_t references_len);

/* All of these numbers. */
struct beckethand_verdict {
    uint32_t answer, reference, presented, start, length, issuer, text_start, text_length;
};

/* beckethand_verdict gives, at the cost of one of the calls above, what all eight of them give. */
BECKETHAND_MUST_USE
struct beckethand_verdict beckethand_verdict(const uint8_t *san, size_t san_len, const uint8_t *subject, size_t subject_len,
                                             const uint8_t *constraints, size_t constraints_len, const uint8_t *lengths,
                                             size_t lengths_len, const uint8_t *references, size_t references_len);

/* beckethand_record_answer says whether the records are good: 7 if they are too long, else 6 if any of them is bad, there is none,
 * or their length is no multiple of 320, else 0. The index does not change it. */
BECKETHAND_MUST_USE
uint32_t beckethand_record_answer(const uint8_t *references, size_t references_len, size_t index);

/* beckethand_record_kind, _service_length and _domain_length give those numbers of the record at the index, from 0; zeros where the
 * answer is not 0, and past the last record. */
BECKETHAND_MUST_USE
uint32_t beckethand_record_kind(const uint8_t *references, size_t references_len, size_t index);
BECKETHAND_MUST_USE
uint32_t beckethand_record_service_length(const uint8_t *references, size_t references_len, size_t index);
BECKETHAND_MUST_USE
uint32_t beckethand_record_domain_length(const uint8_t *references, size_t references_len, size_t index);

/* A row of a listing. kind: one of the numbers below. start, length: where the name's DER element lies in the listed bytes: the
 * GeneralName in a SAN; the attribute's SEQUENCE in a subject; the GeneralName in constraints, without the subtree's SEQUENCE
 * around it. group: the entry's index in a SAN, the RDN's index in a subject, 0 for permitted and 1 for excluded in constraints. */
struct beckethand_row {
    size_t kind, start, length, group;
};

/* kinds in a SAN or constraints: the tag's low five bits, or 9 for an SRVName */
#define BECKETHAND_ROW_OTHER_NAME 0
#define BECKETHAND_ROW_EMAIL 1
#define BECKETHAND_ROW_DNS 2
#define BECKETHAND_ROW_X400_ADDRESS 3
#define BECKETHAND_ROW_DIRECTORY_NAME 4
#define BECKETHAND_ROW_EDI_PARTY_NAME 5
#define BECKETHAND_ROW_URI 6
#define BECKETHAND_ROW_IP_ADDRESS 7
#define BECKETHAND_ROW_REGISTERED_ID 8
#define BECKETHAND_ROW_SRV 9
/* kinds in a subject: a CN with tag 0C, 13 or 16 (UTF8String, PrintableString, IA5String); another CN; any other attribute */
#define BECKETHAND_ROW_CN 10
#define BECKETHAND_ROW_OTHER_CN 11
#define BECKETHAND_ROW_OTHER_ATTRIBUTE 12
/* groups in constraints */
#define BECKETHAND_PERMITTED 0
#define BECKETHAND_EXCLUDED 1

struct beckethand_listed {
    size_t answer, count;
};

/* which string beckethand_list lists; any number but 0 and 1 means constraints */
#define BECKETHAND_LIST_SAN 0
#define BECKETHAND_LIST_SUBJECT 1
#define BECKETHAND_LIST_CONSTRAINTS 2

/* beckethand_list lists one certificate string: of the constraints, those of one CA. Only that string is judged. It answers 7 if it is
 * too long, or else 3, 4 or 5 if it is unreadable, each with count 0; 8, with the count needed, exactly when that exceeds the rows lent;
 * else 0 with the count, and the first count rows of the table hold the names in byte order. Rows past the count keep what they held,
 * and on any answer but 0 all rows do. An absent SAN, or absent constraints (length 0), lists 0 rows. The table must not overlap the
 * bytes; it may be NULL where lent is 0. */
BECKETHAND_MUST_USE
struct beckethand_listed beckethand_list(struct beckethand_row *table, size_t lent, const uint8_t *bytes, size_t bytes_len,
                                         size_t which);

/* THE VIEWER pages through one certificate string name by name, with no table. Its whole state is the string and a position, which the
 * caller keeps: begin at BECKETHAND_OPENING_AT, also where the opening is refused, and hand each call the position that the last one
 * gave. */
#define BECKETHAND_OPENING_AT 0

/* What a viewer shows from a position. shown is 1 with a row, whose kind, start, length and group are those of beckethand_row; it is 0
 * at the end, and these four are 0. at is the position after: just past the row's element, or at the end the position that was
 * handed. */
struct beckethand_sight {
    size_t shown, kind, start, length, group, at;
};

/* beckethand_opening answers 7 if the string is too long, else 3, 4 or 5 if it is unreadable, else 0; which is as for
 * beckethand_list. An absent SAN, or absent constraints (length 0), opens with 0, at its end. */
BECKETHAND_MUST_USE
uint32_t beckethand_opening(const uint8_t *bytes, size_t bytes_len, size_t which);

/* beckethand_view shows the first row of the string's listing that starts at or past the position, whatever number that is. If there
 * is none, or the opening is refused, it is at the end. A row's group is a count from the start of the string, so each call reads and
 * judges the string from there: the time to page through it grows with its length times its names. */
BECKETHAND_MUST_USE
struct beckethand_sight beckethand_view(const uint8_t *bytes, size_t bytes_len, size_t which, size_t at);

/* THE WRITERS make what the other calls read: a SAN value for a certificate request, and reference records for a kiosk. What they write
 * has the form that these calls take, and reads back as the list that was asked for.
 *
 * A list is three slices: one kind for each name, numbered as in a record; the texts' bytes, end to end with nothing between; and the
 * texts' lengths. A SAN's name has one text, a record two: its service and then its domain. So `a.b`, `_m.b.c`, `sip://a.b` in a SAN are
 *
 *   kinds 1 2 3, lengths 3 6 9, texts "a.b_m.b.csip://a.b"
 *
 * and the records DNS `a.b` and SRV `m`, `a.b` are kinds 1 2, lengths 0 3 1 3, texts "a.bma.b". A pointer may be NULL where its count is
 * 0. The buffer must not overlap the list.
 *
 * The answer is the first of these that applies; length is 0 and the buffer is untouched on any answer but 0:
 *
 *   21  empty list         no kinds: ask for one name at least
 *   22  not a name         nothing to write: correct the list. Its lengths are not one (SAN) or two (records) for each kind, or don't add
 *                          up to the texts' bytes; or a name is not one of its kind, as below
 *   23  result too long    over BECKETHAND_SAN_LIMIT bytes, or over 16 records: ask for fewer names, or shorter ones
 *   24  buffer too short   lend as many bytes as the limit, or 320 for each record
 *    0  written            the first `length` bytes of the buffer hold the result; bytes past it keep what they held
 *
 * NAMES IN A SAN. 1: a domain as under RECORDS, or "*." and such a domain, at most 253 bytes in all; 2: "_", a service as under RECORDS,
 * "." and a domain; 3: a scheme, "://", optionally a user part and "@", a domain, optionally ":" and digits or nothing, and then the end or
 * anything from "/", "?" or "#" on. A domain may have one label here, but not behind "*.". Every byte is below 128. Case is kept.
 * NAMES IN RECORDS: those of a good record. */
struct beckethand_written {
    size_t answer, length;
};

/* the answers of the writers: BECKETHAND_ACCEPTED, or one of these */
#define BECKETHAND_EMPTY_LIST 21
#define BECKETHAND_NOT_A_NAME 22
#define BECKETHAND_RESULT_TOO_LONG 23
#define BECKETHAND_BUFFER_TOO_SHORT 24

/* beckethand_write_san writes the value of a subjectAltName extension. */
BECKETHAND_MUST_USE
struct beckethand_written beckethand_write_san(uint8_t *buffer, size_t buffer_len, const uint8_t *texts, size_t texts_len,
                                               const size_t *lengths, size_t lengths_count, const uint8_t *kinds, size_t kinds_count);

/* beckethand_write_records writes reference records, end to end, each from 320 zero bytes. */
BECKETHAND_MUST_USE
struct beckethand_written beckethand_write_records(uint8_t *buffer, size_t buffer_len, const uint8_t *texts, size_t texts_len,
                                                   const size_t *lengths, size_t lengths_count, const uint8_t *kinds,
                                                   size_t kinds_count);

/* beckethand_is_match gives 1 if the answer of a verdict is a match, and 0 if it is any other number. */
BECKETHAND_MUST_USE
static inline int beckethand_is_match(uint32_t answer)
{
    return answer == BECKETHAND_MATCH;
}

/* beckethand_answer_text says in a few words, for logs, what an answer of any call means, or that no call gives such a number. The text
 * is constant, and is not to be freed. */
BECKETHAND_MUST_USE
static inline const char *beckethand_answer_text(uint32_t answer)
{
    switch (answer) {
    case BECKETHAND_MATCH: /* and BECKETHAND_ACCEPTED, which is the same number */
        return "match, accepted or written";
    case BECKETHAND_MISMATCH:
        return "mismatch: no presented name matches";
    case BECKETHAND_CONSTRAINTS_BROKEN:
        return "constraints broken: an SRVName or a dNSName breaks the constraints of a CA";
    case BECKETHAND_SAN_UNREADABLE:
        return "SAN unreadable";
    case BECKETHAND_SUBJECT_UNREADABLE:
        return "subject unreadable";
    case BECKETHAND_CONSTRAINTS_UNREADABLE:
        return "constraints unreadable";
    case BECKETHAND_REFERENCES_UNREADABLE:
        return "reference records unreadable";
    case BECKETHAND_INPUT_TOO_LONG:
        return "an input is too long, or there are more than 8 lengths, or they do not fit the constraints";
    case BECKETHAND_TABLE_TOO_SHORT:
        return "table too short";
    case BECKETHAND_EMPTY_LIST:
        return "empty list";
    case BECKETHAND_NOT_A_NAME:
        return "not a name, or the parts of the list disagree";
    case BECKETHAND_RESULT_TOO_LONG:
        return "result too long";
    case BECKETHAND_BUFFER_TOO_SHORT:
        return "buffer too short";
    default:
        return "no answer of beckethand";
    }
}

#ifdef __cplusplus
}
#endif

#endif
