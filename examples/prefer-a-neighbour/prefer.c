// At decision: a route of AS 65002 beats a route of another AS; of two others, or of two of AS 65002, the native rule
// chooses.
#include "../../include/xbgp.h"

#define PREFERRED 65002

xbgp_u64 prefer(void) {
    int old = xbgp_get_source(XBGP_ROUTE, XBGP_AS) == PREFERRED;
    int new = xbgp_get_source(XBGP_OTHER, XBGP_AS) == PREFERRED;
    if (old == new)
        return xbgp_next();
    return new ? XBGP_NEW : XBGP_OLD;
}
