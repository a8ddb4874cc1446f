/* The fourth C block of the README is the inside of a function. tests/kiosk/run takes it out of it as it stands, to fourth.c; what it uses
 * and does not declare is declared here.
 */
#include "names.h"

int fragment(SSL_CTX *context, SSL *ssl, const uint8_t *records, size_t records_len);

int fragment(SSL_CTX *context, SSL *ssl, const uint8_t *records, size_t records_len)
{
#include "fourth.c"
    return send_card;
}
