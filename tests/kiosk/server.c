/* server.c: the servers that the kiosk visits in these tests.
 *
 *   server CHAIN KEY COUNT
 *   server silent|slow COUNT
 *
 * It listens on a free port of 127.0.0.1 and writes the port's number. For each of COUNT connections it then writes one line: what was
 * received, "nothing" if that was nothing, "no handshake" if there was none. A silent server accepts a connection and says nothing; a slow
 * one says a byte now and then, and never a whole message.
 */
#include <arpa/inet.h>
#include <openssl/err.h>
#include <openssl/pem.h>
#include <openssl/ssl.h>
#include <signal.h>
#include <stdio.h>
#include <stdlib.h>
#include <string.h>
#include <unistd.h>

/* longer than the tests of one server take, so that none is left behind */
#define SECONDS 120

static void stop(const char *reason)
{
    fprintf(stderr, "server: %s\n", reason);
    exit(2);
}

/* Shows these certificates as they are. SSL_CTX_use_certificate_chain_file would refuse what a stranger's server may well show: an
 * extension that stands twice, for one. */
static void show_chain(SSL_CTX *context, FILE *chain)
{
    X509 *certificate = PEM_read_X509(chain, NULL, NULL, NULL);
    if (certificate == NULL || SSL_CTX_use_certificate(context, certificate) != 1)
        stop("the server's certificate cannot be used");
    X509_free(certificate);
    while ((certificate = PEM_read_X509(chain, NULL, NULL, NULL)) != NULL)
        if (SSL_CTX_add0_chain_cert(context, certificate) != 1)
            stop("a CA's certificate cannot be used");
    ERR_clear_error();
}

static SSL_CTX *make_context(const char *chain, const char *key)
{
    SSL_CTX *context = SSL_CTX_new(TLS_server_method());
    FILE *file = fopen(chain, "r");
    if (context == NULL || file == NULL)
        stop("no context or no chain");
    show_chain(context, file);
    fclose(file);
    if (SSL_CTX_use_PrivateKey_file(context, key, SSL_FILETYPE_PEM) != 1)
        stop("the key cannot be used");
    return context;
}

static int listen_on_loopback(void)
{
    struct sockaddr_in address = {.sin_family = AF_INET, .sin_addr.s_addr = htonl(INADDR_LOOPBACK)};
    socklen_t len = sizeof address;
    int listener = socket(AF_INET, SOCK_STREAM, 0);
    if (listener < 0 || bind(listener, (struct sockaddr *)&address, len) != 0 || listen(listener, 16) != 0
        || getsockname(listener, (struct sockaddr *)&address, &len) != 0)
        stop("cannot listen");
    printf("%d\n", ntohs(address.sin_port));
    return listener;
}

/* all that comes, until the other side says that it was all or is gone */
static void receive(SSL *ssl)
{
    char bytes[256];
    int count, total = 0;
    if (SSL_accept(ssl) != 1) {
        puts("no handshake");
        return;
    }
    while ((count = SSL_read(ssl, bytes, sizeof bytes)) > 0)
        total += (int)fwrite(bytes, 1, (size_t)count, stdout);
    puts(total > 0 ? "" : "nothing");
    SSL_shutdown(ssl);
}

/* a connection to a server that shows its certificate */
static void show(int connection, SSL_CTX *context)
{
    SSL *ssl = SSL_new(context);
    if (ssl == NULL || SSL_set_fd(ssl, connection) != 1)
        stop("no connection of TLS");
    receive(ssl);
    SSL_free(ssl);
}

/* a connection to one that shows none, until the other side is gone */
static void delay(int connection, int slow)
{
    const char header[] = {0x16, 0x03, 0x03, 0x3F, 0x00}; /* of a handshake record of 16,128 bytes, which are zeros here */
    char bytes[1024];
    size_t said = 0;
    if (slow) {
        while (write(connection, said < sizeof header ? &header[said] : "", 1) == 1) {
            said++;
            usleep(100000);
        }
    } else {
        while (read(connection, bytes, sizeof bytes) > 0)
            continue;
    }
    puts("no handshake");
}

int main(int argc, char **argv)
{
    SSL_CTX *context = NULL;
    int listener, slow = argc == 3 && strcmp(argv[1], "slow") == 0;
    if (argc != 4 && !slow && (argc != 3 || strcmp(argv[1], "silent") != 0))
        stop("usage: server CHAIN KEY COUNT, or server silent|slow COUNT");
    signal(SIGPIPE, SIG_IGN);
    alarm(SECONDS);
    setvbuf(stdout, NULL, _IOLBF, BUFSIZ);
    if (argc == 4)
        context = make_context(argv[1], argv[2]);
    listener = listen_on_loopback();
    for (int left = atoi(argv[argc - 1]); left > 0; left--) {
        int connection = accept(listener, NULL, NULL);
        if (connection < 0)
            stop("cannot accept");
        if (context != NULL)
            show(connection, context);
        else
            delay(connection, slow);
        close(connection);
    }
    close(listener);
    SSL_CTX_free(context);
    return 0;
}
