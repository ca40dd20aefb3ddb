// At outbound: 10.0.0.0/8 and what lies in it is not advertised to an external peer.
#include "../../include/xbgp.h"

xbgp_u64 drop(void) {
    xbgp_u8 prefix[5];
    xbgp_get_prefix(prefix);
    if (xbgp_get_peer(XBGP_KIND) == XBGP_EXTERNAL && prefix[0] == 10 && prefix[4] >= 8)
        return XBGP_REJECT;
    return xbgp_next();
}
