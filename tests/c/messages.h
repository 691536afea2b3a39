/* FIX messages for tests and measurements, written with | for SOH. */
#ifndef MESSAGES_H
#define MESSAGES_H

#include <stddef.h>
#include <stdint.h>
#include <stdio.h>
#include <string.h>

#define SOH '\001'

struct message {
    uint8_t bytes[1100];
    size_t length;
};

/* The message whose fields between 9 and 10 are these. */
static struct message framed(const char *fields)
{
    struct message m;
    unsigned sum = 0;
    int n = snprintf((char *)m.bytes, sizeof m.bytes, "8=FIX.4.2|9=%zu|%s", strlen(fields), fields);
    for (int i = 0; i < n; i++) {
        if (m.bytes[i] == '|')
            m.bytes[i] = SOH;
        sum += m.bytes[i];
    }
    n += snprintf((char *)m.bytes + n, sizeof m.bytes - (size_t)n, "10=%03u%c", sum % 256, SOH);
    m.length = (size_t)n;
    return m;
}

/* Header fields of port P to venue V, and a body. */
static struct message sent(const char *type, const char *body)
{
    char fields[1100];
    snprintf(fields, sizeof fields, "35=%s|34=7|49=P|52=20260105-09:00:01|56=V|%s", type, body);
    return framed(fields);
}

/* A new order with an MPID and a MinQty, each missing if it is 0. tif: '0' Day, '3' IOC, '4' Fill or Kill. */
static inline struct message order_with(const char *id, int side, unsigned long quantity, const char *yield, unsigned mpid, char tif,
                                 unsigned long minimum)
{
    char body[600], client[32] = "", least[32] = "";
    if (mpid > 0)
        snprintf(client, sizeof client, "109=%u|", mpid);
    if (minimum > 0)
        snprintf(least, sizeof least, "110=%lu|", minimum);
    snprintf(body, sizeof body, "11=%s|21=1|38=%lu|40=2|44=%s|47=A|54=%d|55=350|59=%c|60=20260105-09:00:00|%s%s8060=1|", id, quantity,
             yield, side, tif, client, least);
    return sent("D", body);
}

/* The same without a MinQty. */
static inline struct message new_order(const char *id, int side, unsigned long quantity, const char *yield, unsigned mpid, char tif)
{
    return order_with(id, side, quantity, yield, mpid, tif, 0);
}

/* An order for a share, with 544 and 8214, each missing if it is 0. */
static inline struct message share_order(const char *id, int side, unsigned long quantity, const char *price, unsigned mpid, char tif,
                                         unsigned cash, unsigned margin)
{
    char body[600], client[32] = "", paid[32] = "", on_margin[32] = "";
    if (mpid > 0)
        snprintf(client, sizeof client, "109=%u|", mpid);
    if (cash > 0)
        snprintf(paid, sizeof paid, "544=%u|", cash);
    if (margin > 0)
        snprintf(on_margin, sizeof on_margin, "8214=%u|", margin);
    snprintf(body, sizeof body, "11=%s|21=1|38=%lu|40=2|44=%s|47=A|54=%d|55=7203.T|59=%c|60=20260105-09:00:00|%s%s8060=1|%s", id, quantity,
             price, side, tif, client, paid, on_margin);
    return sent("D", body);
}

/* A replacement and a cancel of a bond or a share. */
static inline struct message replacement_of(const char *code, const char *id, const char *original, int side, unsigned long quantity,
                                            const char *quote)
{
    char body[600];
    snprintf(body, sizeof body, "11=%s|21=1|38=%lu|40=2|41=%s|44=%s|54=%d|55=%s|60=20260105-09:00:00|", id, quantity, original, quote,
             side, code);
    return sent("G", body);
}

static inline struct message cancellation_of(const char *code, const char *id, const char *original, int side)
{
    char body[600];
    snprintf(body, sizeof body, "11=%s|41=%s|54=%d|55=%s|60=20260105-09:00:00|", id, original, side, code);
    return sent("F", body);
}

static inline struct message replacement(const char *id, const char *original, int side, unsigned long quantity, const char *yield)
{
    return replacement_of("350", id, original, side, quantity, yield);
}

static inline struct message cancellation(const char *id, const char *original, int side)
{
    return cancellation_of("350", id, original, side);
}

#endif
