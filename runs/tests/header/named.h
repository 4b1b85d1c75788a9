/* What the tests of the calls with named fields share: a field must reach the argument of its name, and a buffer that is left out
 * must get a pointer that is not null, with length 0, but pins and owners that are left out zeros. */
#include "tsorvenk.h"
#include <stdio.h>
#include <stdlib.h>

static void held(int so, const char *call, const char *field) {
    if (!so) {
        printf("%s: %s did not arrive\n", call, field);
        exit(1);
    }
}

#define NUMBER(call, field) held(field == call.field, #call, #field)
#define BUFFER(call, field) \
    held(call.field ? field == call.field && field##_len == call.field##_len \
                    : field != NULL && (uintptr_t)field % sizeof *field == 0 && field##_len == 0, #call, #field)

/* a table that is left out is zeros, so many as are wanted or 4096 */
static int zeros(const uint8_t *bytes, size_t bytes_len, size_t wanted) {
    size_t k;
    for (k = 0; bytes && k < bytes_len && !bytes[k];)
        k++;
    return bytes && k == bytes_len && bytes_len == (wanted < 4096 ? wanted : 4096);
}

#define BYTES(call, field, number) \
    held(call.field ? field == call.field && field##_len == call.field##_len : zeros(field, field##_len, call.number), \
        #call, #field)
#define PINS(call) BYTES(call, pins, n)
#define OWNERS(call) NUMBER(call, team), BYTES(call, owners, s)
