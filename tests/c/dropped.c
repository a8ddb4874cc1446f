/* Each call of the header once, to be compiled as C and as C++ and not to be run: where the results are used there is no warning, and with
 * -DDROP there is one for each call.
 */
#include "beckethand.h"

#ifdef DROP
#define CALL(type, call) call
#else
#define CALL(type, call) do { type used = call; (void)used; } while (0)
#endif

#define INPUTS NULL, 0, NULL, 0, NULL, 0, NULL, 0, NULL, 0
#define LIST NULL, 0, NULL, 0, NULL, 0, NULL, 0

void calls(void);

void calls(void)
{
    CALL(uint32_t, beckethand_version());
    CALL(uint32_t, beckethand_answer(INPUTS));
    CALL(uint32_t, beckethand_reference(INPUTS));
    CALL(uint32_t, beckethand_presented(INPUTS));
    CALL(uint32_t, beckethand_start(INPUTS));
    CALL(uint32_t, beckethand_length(INPUTS));
    CALL(uint32_t, beckethand_text_start(INPUTS));
    CALL(uint32_t, beckethand_text_length(INPUTS));
    CALL(uint32_t, beckethand_issuer(INPUTS));
    CALL(struct beckethand_verdict, beckethand_verdict(INPUTS));
    CALL(uint32_t, beckethand_record_answer(NULL, 0, 0));
    CALL(uint32_t, beckethand_record_kind(NULL, 0, 0));
    CALL(uint32_t, beckethand_record_service_length(NULL, 0, 0));
    CALL(uint32_t, beckethand_record_domain_length(NULL, 0, 0));
    CALL(struct beckethand_listed, beckethand_list(NULL, 0, NULL, 0, BECKETHAND_LIST_SAN));
    CALL(uint32_t, beckethand_opening(NULL, 0, BECKETHAND_LIST_SAN));
    CALL(struct beckethand_sight, beckethand_view(NULL, 0, BECKETHAND_LIST_SAN, BECKETHAND_OPENING_AT));
    CALL(struct beckethand_written, beckethand_write_san(LIST));
    CALL(struct beckethand_written, beckethand_write_records(LIST));
    CALL(int, beckethand_is_match(BECKETHAND_MISMATCH));
    CALL(const char *, beckethand_answer_text(BECKETHAND_MISMATCH));
}
