/* The version, which answer is a match, and the texts of the answers: what the header alone says is held to the archive, and to what is
 * written out here. */
#include <stdio.h>
#include <string.h>

#include "desk.h"

/* the header says that #if can compare the version */
#if BECKETHAND_VERSION < 10100
#error "a version before the one that has beckethand_is_match"
#endif

/* each number that a call answers, by its name in the header, and what it means */
static const struct {
    uint32_t answer;
    const char *text;
} answers[] = {
    {BECKETHAND_MATCH, "match, accepted or written"},
    {BECKETHAND_MISMATCH, "mismatch: no presented name matches"},
    {BECKETHAND_CONSTRAINTS_BROKEN, "constraints broken: an SRVName or a dNSName breaks the constraints of a CA"},
    {BECKETHAND_SAN_UNREADABLE, "SAN unreadable"},
    {BECKETHAND_SUBJECT_UNREADABLE, "subject unreadable"},
    {BECKETHAND_CONSTRAINTS_UNREADABLE, "constraints unreadable"},
    {BECKETHAND_REFERENCES_UNREADABLE, "reference records unreadable"},
    {BECKETHAND_INPUT_TOO_LONG, "an input is too long, or there are more than 8 lengths, or they do not fit the constraints"},
    {BECKETHAND_TABLE_TOO_SHORT, "table too short"},
    {BECKETHAND_EMPTY_LIST, "empty list"},
    {BECKETHAND_NOT_A_NAME, "not a name, or the parts of the list disagree"},
    {BECKETHAND_RESULT_TOO_LONG, "result too long"},
    {BECKETHAND_BUFFER_TOO_SHORT, "buffer too short"},
};

static const char *const unknown = "no answer of beckethand";

/* numbers that are no answer; the low bits of some are those of a match */
static const uint32_t none[] = {9, 20, 25, 10000, 0x100, 0x10000, 0x80000000, UINT32_MAX};

/* the numbers themselves, as the header's table of answers and that of the writers have them */
static const uint32_t numbers[] = {0, 1, 2, 3, 4, 5, 6, 7, 8, 21, 22, 23, 24};

#define COUNT (sizeof answers / sizeof *answers)

static bool is_text(uint32_t answer, const char *text) {
    return strcmp(beckethand_answer_text(answer), text) == 0;
}

/* an answer's text is what it means, no other answer has it, and no stop ends it */
static void text_of_answer(size_t k) {
    char name[32];
    const char *text = beckethand_answer_text(numbers[k]);
    snprintf(name, sizeof name, "text of answer %u", numbers[k]);
    cases++;
    check(name, "another number in the header", answers[k].answer == numbers[k]);
    check(name, "another text", is_text(answers[k].answer, answers[k].text));
    check(name, "empty, or with a stop at its end", *text != '\0' && text[strlen(text) - 1] != '.');
    check(name, "the text of no answer", !is_text(numbers[k], unknown));
    for (size_t j = 0; j < k; j++)
        check(name, "the text of another answer", !is_text(numbers[k], beckethand_answer_text(numbers[j])));
}

/* any number that is no answer has the same text */
static void text_of_no_answer(void) {
    for (size_t k = 0; k < sizeof none / sizeof *none; k++) {
        char name[32];
        snprintf(name, sizeof name, "text of %u", none[k]);
        cases++;
        check(name, "it is no answer", is_text(none[k], unknown));
    }
}

/* 0 is a match, and no other number is */
static void matches(void) {
    cases++;
    for (size_t k = 0; k < COUNT; k++)
        check("beckethand_is_match", "an answer", beckethand_is_match(numbers[k]) == (k == 0));
    for (size_t k = 0; k < sizeof none / sizeof *none; k++)
        check("beckethand_is_match", "a number that is no answer", beckethand_is_match(none[k]) == 0);
}

void texts(void) {
    cases++;
    check("version", "the header and the archive disagree", beckethand_version() == BECKETHAND_VERSION);
    _Static_assert(COUNT == sizeof numbers / sizeof *numbers, "a text for each number");
    for (size_t k = 0; k < COUNT; k++)
        text_of_answer(k);
    cases++;
    check("text of 0", "an accepted string or a written list has another", BECKETHAND_ACCEPTED == BECKETHAND_MATCH);
    text_of_no_answer();
    matches();
}
