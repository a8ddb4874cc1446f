/* taken.c: what names_take takes of chains that OpenSSL's own verification would not let through, and what names_judge says of it.
 *
 *   taken CHAIN KIND SERVICE DOMAIN
 *
 * CHAIN is a file of certificates, the server's first. No signature, date or constraint is looked at. KIND is a record's, as a number. It
 * writes the result of names_take; if the names were taken, then the lengths of the SAN, the subject and each CA's constraints, the answer
 * with that one record, and the issuer's index.
 */
#include <openssl/pem.h>
#include <stdio.h>
#include <stdlib.h>

#include "names.h"

static STACK_OF(X509) *load(const char *path)
{
    STACK_OF(X509) *chain = sk_X509_new_null();
    FILE *file = fopen(path, "r");
    X509 *certificate;
    if (file == NULL || chain == NULL)
        exit(2);
    while ((certificate = PEM_read_X509(file, NULL, NULL, NULL)) != NULL)
        sk_X509_push(chain, certificate);
    fclose(file);
    return chain;
}

static void print_names(const struct names *names, const uint8_t *record)
{
    const struct beckethand_verdict verdict = names_judge(names, record, BECKETHAND_RECORD_SIZE);
    printf("SAN %zu, subject %zu, constraints", names->san_len, names->subject_len);
    for (size_t i = 0; i + 1 < names->lengths_len; i += 2)
        printf(" %d", names->lengths[i] << 8 | names->lengths[i + 1]);
    printf(", answer %u, issuer %u\n", verdict.answer, verdict.issuer);
}

int main(int argc, char **argv)
{
    static const char *const results[] = {"taken", "no chain", "extension twice", "extension empty", "no memory"};
    uint8_t record[BECKETHAND_RECORD_SIZE];
    struct names names;
    STACK_OF(X509) *chain;
    enum names_result result;
    if (argc != 5 || names_record(record, (uint8_t)atoi(argv[2]), argv[3], argv[4]) != BECKETHAND_ACCEPTED)
        return 2;
    chain = load(argv[1]);
    result = names_take(&names, chain);
    puts(results[result]);
    if (result == NAMES_TAKEN)
        print_names(&names, record);
    else if (names.san != NULL || names.constraints != NULL || names.lengths != NULL)
        puts("something is left in names");
    names_free(&names);
    sk_X509_pop_free(chain, X509_free);
    return 0;
}
