// At encode: whatever is sent gets an attribute of code 200, optional and transitive, with the value 7.
#include "../../include/xbgp.h"

xbgp_u64 mark(void) {
    xbgp_u8 attribute[4];
    attribute[0] = XBGP_OPTIONAL | XBGP_TRANSITIVE;
    attribute[1] = 200;
    attribute[2] = 1;
    attribute[3] = 7;
    xbgp_write_buf(attribute, sizeof attribute);
    return XBGP_APPEND;
}
