// At inbound: a route of peer 1 gets the community 65000:1 beside those that it has.
#include "../../include/xbgp.h"

xbgp_u64 tag(void) {
    // Room for 63 communities and the new one.
    xbgp_u8 list[256];
    xbgp_u64 len;
    if (xbgp_get_peer(XBGP_NUMBER) != 1)
        return xbgp_next();
    len = xbgp_get_attr(XBGP_ROUTE, XBGP_COMMUNITIES, list, sizeof list - 4);
    if (len == XBGP_ABSENT)
        len = 0;
    // More communities than fit here, or a value that is no list of them, stays as it is.
    if (len > sizeof list - 4 || len % 4 != 0)
        return xbgp_next();
    xbgp_write_u32(list + len, 65000u << 16 | 1);
    xbgp_set_attr(XBGP_COMMUNITIES, XBGP_OPTIONAL | XBGP_TRANSITIVE, list, len + 4);
    return xbgp_next();
}
