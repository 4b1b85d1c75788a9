// The header as C++, which has no initialisers by name before C++20: a struct that starts as 0, then field by field.
#include "tsorvenk.h"

uint8_t lend_some(int8_t *spins) {
    tsorvenk_step_args args = tsorvenk_step_args();
    args.mode = TSORVENK_PERM;
    args.spins = spins;
    args.spins_len = 1;
    return tsorvenk_step_with(&args);
}
