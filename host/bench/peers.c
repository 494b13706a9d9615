/* mbedTLS's replay window of 64 numbers, as one call: 0 where the number is taken, else -1. */
#include <stdint.h>
#include <stdlib.h>
#include <string.h>
#include <mbedtls/ssl.h>
#include <mbedtls/ssl_internal.h> /* declares the two functions of the window, in version 2 */

struct mbed {
    mbedtls_ssl_context ssl;
    mbedtls_ssl_config conf;
    unsigned char ctr[8];
};

/* NULL where there is no memory. It is never freed: the program makes one. */
void *mbed_new(void)
{
    struct mbed *m = calloc(1, sizeof *m);
    if (m == NULL) return NULL;
    mbedtls_ssl_init(&m->ssl);
    mbedtls_ssl_config_init(&m->conf);
    mbedtls_ssl_config_defaults(&m->conf, MBEDTLS_SSL_IS_CLIENT, MBEDTLS_SSL_TRANSPORT_DATAGRAM, MBEDTLS_SSL_PRESET_DEFAULT);
    mbedtls_ssl_conf_dtls_anti_replay(&m->conf, MBEDTLS_SSL_ANTI_REPLAY_ENABLED);
    /* What mbedtls_ssl_setup and the record reader set. */
    m->ssl.conf = &m->conf;
    m->ssl.in_ctr = m->ctr;
    mbedtls_ssl_dtls_replay_reset(&m->ssl);
    return m;
}

/* The number is 48 bits, big-endian, behind two bytes of epoch. */
int mbed_take(void *p, uint64_t n)
{
    struct mbed *m = p;
    uint64_t be = __builtin_bswap64(n & 0xffffffffffffull);
    memcpy(m->ctr, &be, 8);
    if (mbedtls_ssl_dtls_replay_check(&m->ssl) != 0) return -1;
    mbedtls_ssl_dtls_replay_update(&m->ssl);
    return 0;
}
