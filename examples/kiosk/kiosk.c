/* kiosk.c: a client that sends a reader's card number only to a server whose certificate names the server that is meant.
 *
 *   cc -o kiosk kiosk.c names.c $(pkg-config --cflags --libs beckethand openssl)
 *   ./kiosk 127.0.0.1:4433 roots.pem 29011000123456 dns:library.example srv:circulation:library.example
 *
 * The references are dns:DOMAIN, srv:SERVICE:DOMAIN, uri:SCHEME:DOMAIN and cn:DOMAIN, 1 to 16 of them; one that matches is enough. It
 * says in words what it found, and then "sent" or "not sent". Exit status 0: the card number was sent; 1: it was not; 2: the arguments are
 * wrong, and nothing was tried. (A real kiosk has the number from its reader: arguments are seen by everybody on the machine.)
 *
 * Who decides: OpenSSL the path, signatures, dates and the constraints on other names than SRVNames (names_verify); beckethand the names
 * and the constraints on SRVNames and dNSNames (names_judge, which adds what OpenSSL misses of CNs and URIs). The kiosk sends on
 * BECKETHAND_MATCH and on nothing else. It waits for a server KIOSK_SECONDS and no longer.
 */
#include <openssl/err.h>
#include <openssl/x509v3.h>
#include <signal.h>
#include <stdio.h>
#include <string.h>
#include <sys/socket.h>
#include <sys/time.h>
#include <time.h>

#include "names.h"

/* ---- what is meant */

#define MOST_REFERENCES (BECKETHAND_REFERENCES_LIMIT / BECKETHAND_RECORD_SIZE)

struct meant {
    char *const *references; /* as they stand on the command line */
    size_t count;
    uint8_t records[BECKETHAND_REFERENCES_LIMIT];
};

/* the record for one reference of the command line */
static uint32_t write_record(uint8_t *record, const char *reference)
{
    const struct {
        const char *start;
        uint8_t kind;
        int has_service;
    } forms[] = {{"dns:", BECKETHAND_DNS, 0}, {"srv:", BECKETHAND_SRV, 1}, {"uri:", BECKETHAND_URI, 1}, {"cn:", BECKETHAND_CN, 0}};
    for (size_t i = 0; i < sizeof forms / sizeof *forms; i++) {
        char service[BECKETHAND_SERVICE_SIZE + 1] = "";
        const char *domain = reference + strlen(forms[i].start);
        if (strncmp(reference, forms[i].start, strlen(forms[i].start)) != 0)
            continue;
        if (forms[i].has_service) {
            size_t len = strcspn(domain, ":");
            if (domain[len] == 0 || len > BECKETHAND_SERVICE_SIZE)
                break;
            memcpy(service, domain, len);
            domain += len + 1;
        }
        return names_record(record, forms[i].kind, service, domain);
    }
    return BECKETHAND_NOT_A_NAME;
}

static int write_records(struct meant *meant)
{
    for (size_t i = 0; i < meant->count; i++) {
        uint32_t answer = write_record(meant->records + i * BECKETHAND_RECORD_SIZE, meant->references[i]);
        if (answer != BECKETHAND_ACCEPTED) {
            fprintf(stderr, "kiosk: %s: %s\n", meant->references[i], beckethand_answer_text(answer));
            return 0;
        }
    }
    return 1;
}

/* ---- what is found, in words */

/* A certificate's bytes come from a stranger: what is not printable is shown by its number. */
static void print_text(const uint8_t *text, size_t len)
{
    for (size_t i = 0; i < len; i++)
        printf(text[i] > ' ' && text[i] < 0x7F && text[i] != '\\' ? "%c" : "\\x%02X", text[i]);
}

/* the text of a dNSName or an SRVName, by its index in the SAN */
static void print_entry(const struct names *names, uint32_t index)
{
    struct beckethand_sight v = {0, 0, 0, 0, 0, BECKETHAND_OPENING_AT};
    const uint8_t *element;
    GENERAL_NAME *name;
    do
        v = beckethand_view(names->san, names->san_len, BECKETHAND_LIST_SAN, v.at);
    while (v.shown && v.group != index);
    element = names->san + v.start;
    name = d2i_GENERAL_NAME(NULL, &element, (long)v.length);
    if (name != NULL) {
        const ASN1_STRING *text = v.kind == BECKETHAND_ROW_SRV ? name->d.otherName->value->value.asn1_string : name->d.dNSName;
        print_text(ASN1_STRING_get0_data(text), (size_t)ASN1_STRING_length(text));
    }
    GENERAL_NAME_free(name);
}

/* the pair that matched */
static void print_pair(const struct beckethand_verdict *v, const struct names *names, const struct meant *meant)
{
    int by_cn = meant->records[v->reference * BECKETHAND_RECORD_SIZE + BECKETHAND_AT_KIND] == BECKETHAND_CN;
    printf(": %s is %s %u, ", meant->references[v->reference], by_cn ? "the CN in RDN" : "SAN entry", v->presented);
    print_text((by_cn ? names->subject : names->san) + v->text_start, v->text_length);
}

static void print_verdict(const struct beckethand_verdict *v, const struct names *names, STACK_OF(X509) *chain, const struct meant *meant)
{
    if (beckethand_is_match(v->answer)) {
        printf("match");
        print_pair(v, names, meant);
    } else if (v->answer == BECKETHAND_CONSTRAINTS_BROKEN && v->text_length > 0) {
        printf("constraints broken by what matched");
        print_pair(v, names, meant);
    } else {
        printf("%s", beckethand_answer_text(v->answer));
        if (v->answer == BECKETHAND_CONSTRAINTS_BROKEN) {
            printf(": SAN entry %u, ", v->presented);
            print_entry(names, v->presented);
        }
    }
    if (v->answer == BECKETHAND_CONSTRAINTS_BROKEN) {
        printf(", against CA %u, ", v->issuer);
        X509_NAME_print_ex_fp(stdout, X509_get_subject_name(sk_X509_value(chain, (int)v->issuer + 1)), 0, XN_FLAG_RFC2253);
    }
    printf("\n");
}

static const char *result_text(enum names_result result)
{
    switch (result) {
    case NAMES_TAKEN: return "names taken";
    case NAMES_NO_CHAIN: return "there is no verified chain";
    case NAMES_EXTENSION_TWICE: return "a subjectAltName or nameConstraints extension stands twice";
    case NAMES_EXTENSION_EMPTY: return "a subjectAltName or nameConstraints extension has no bytes";
    case NAMES_NO_MEMORY: return "no memory";
    }
    return "unknown";
}

/* ---- the connection */

/* how long a server may take for the whole handshake, and afterwards to say anything at all */
#ifndef KIOSK_SECONDS
#define KIOSK_SECONDS 10
#endif

/* Nothing here asks OpenSSL for a host name: that is beckethand's part. */
static SSL_CTX *make_context(const char *roots)
{
    SSL_CTX *context = SSL_CTX_new(TLS_client_method());
    if (context == NULL || !SSL_CTX_set_min_proto_version(context, TLS1_2_VERSION) || !SSL_CTX_load_verify_file(context, roots)) {
        printf("%s cannot be used\n", roots);
        SSL_CTX_free(context);
        return NULL;
    }
    SSL_CTX_set_verify(context, SSL_VERIFY_PEER, names_verify);
    return context;
}

/* does OpenSSL take the chain? */
static int is_verified(const SSL *ssl)
{
    long error = SSL_get_verify_result(ssl);
    if (error != X509_V_OK)
        printf("OpenSSL refuses the chain: %s\n", X509_verify_cert_error_string(error));
    return error == X509_V_OK;
}

/* Connects and makes the handshake within KIOSK_SECONDS in all, however little the server says at a time; after that the socket waits. */
static int shake_hands(BIO *server)
{
    const time_t end = time(NULL) + KIOSK_SECONDS;
    BIO_set_nbio(server, 1);
    while (BIO_do_handshake(server) <= 0)
        if (!BIO_should_retry(server) || BIO_wait(server, end, 100) <= 0)
            return 0;
    return BIO_socket_nbio((int)BIO_get_fd(server, NULL), 0);
}

/* a handshake with the server at an address; the first record's domain tells it which of its certificates is wanted */
static BIO *connect_to(SSL_CTX *context, const char *address, const struct meant *meant)
{
    char domain[BECKETHAND_DOMAIN_SIZE + 1] = "", reason[256];
    SSL *ssl = NULL;
    BIO *server = BIO_new_ssl_connect(context);
    if (server == NULL)
        return NULL;
    memcpy(domain, meant->records + BECKETHAND_AT_DOMAIN, meant->records[BECKETHAND_AT_DOMAIN_LENGTH]);
    BIO_get_ssl(server, &ssl);
    if (SSL_set_tlsext_host_name(ssl, domain) && BIO_set_conn_hostname(server, address) > 0 && shake_hands(server))
        return server;
    ERR_error_string_n(ERR_peek_last_error(), reason, sizeof reason);
    if (is_verified(ssl))
        printf("no connection: %s\n", reason);
    BIO_free_all(server);
    return NULL;
}

/* may the card be sent over this connection? */
static int may_send(SSL *ssl, const struct meant *meant)
{
    STACK_OF(X509) *chain = SSL_get0_verified_chain(ssl);
    struct beckethand_verdict verdict = {.answer = BECKETHAND_MISMATCH};
    struct names names;
    enum names_result result;
    if (!is_verified(ssl))
        return 0;
    result = names_take(&names, chain);
    if (result != NAMES_TAKEN) {
        printf("%s\n", result_text(result));
        return 0;
    }
    verdict = names_judge(&names, meant->records, meant->count * BECKETHAND_RECORD_SIZE);
    print_verdict(&verdict, &names, chain, meant);
    names_free(&names);
    return beckethand_is_match(verdict.answer);
}

/* says that we have sent all, and waits until the server has read it */
static void close_down(BIO *server, SSL *ssl)
{
    const struct timeval limit = {KIOSK_SECONDS, 0};
    setsockopt((int)BIO_get_fd(server, NULL), SOL_SOCKET, SO_RCVTIMEO, &limit, sizeof limit);
    if (SSL_shutdown(ssl) == 0)
        SSL_shutdown(ssl);
    SSL_set_shutdown(ssl, SSL_SENT_SHUTDOWN | SSL_RECEIVED_SHUTDOWN); /* else BIO_free_all waits once more */
}

/* one visit to a server: was the card sent? */
static int visit(SSL_CTX *context, const char *address, const char *card, const struct meant *meant)
{
    BIO *server = connect_to(context, address, meant);
    SSL *ssl = NULL;
    int allowed, sent;
    if (server == NULL)
        return 0;
    BIO_get_ssl(server, &ssl);
    allowed = may_send(ssl, meant);
    sent = allowed && BIO_puts(server, card) == (int)strlen(card);
    if (sent == allowed) /* else the connection is broken */
        close_down(server, ssl);
    BIO_free_all(server);
    return sent;
}

int main(int argc, char **argv)
{
    struct meant meant = {argc > 4 ? argv + 4 : argv, argc > 4 ? (size_t)argc - 4 : 0, {0}};
    SSL_CTX *context;
    int sent;
    if (meant.count < 1 || meant.count > MOST_REFERENCES || *argv[3] == 0 || strspn(argv[3], "0123456789") != strlen(argv[3])) {
        fprintf(stderr, "usage: kiosk ADDRESS:PORT ROOTS CARD REFERENCE..., 1 to %d references\n", MOST_REFERENCES);
        return 2;
    }
    if (!write_records(&meant))
        return 2;
    signal(SIGPIPE, SIG_IGN); /* a server that hangs up is an error of the write, not the end of the kiosk */
    context = make_context(argv[2]);
    sent = context != NULL && visit(context, argv[1], argv[3], &meant);
    SSL_CTX_free(context);
    puts(sent ? "sent" : "not sent");
    return sent ? 0 : 1;
}
