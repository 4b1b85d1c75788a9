/* The calls with named fields of a sweep's test and of a task's three steps, over stand-ins as in named.c. */
#include "named.h"

/* what the stand-ins must be given; every number and pointer in it is another */
static struct tsorvenk_test_sweep_args testing;
static struct tsorvenk_task_label_args labelling;
static struct tsorvenk_task_choose_args choosing;
static struct tsorvenk_task_write_args task;

static int8_t i8[2];
static uint8_t u8[16];
static int32_t i32[2];
static uint32_t u32[16];
static float f32[4];
static int64_t i64[2];

uint8_t tsorvenk_test_sweep(uint8_t mode, uint8_t form, uint8_t keeps, size_t n, size_t d, size_t s,
    uint8_t team, size_t t, size_t r, size_t members, const uint8_t *owners, size_t owners_len,
    const int8_t *spins, size_t spins_len, const int64_t *totals, size_t totals_len,
    const uint32_t *fwd, size_t fwd_len, const uint32_t *bwd, size_t bwd_len, const uint8_t *pins, size_t pins_len,
    const int32_t *couplings, size_t couplings_len, const uint32_t *order, size_t order_len,
    const uint8_t *masks, size_t masks_len, const float *temperatures, size_t temperatures_len,
    const float *cuts, size_t cuts_len, const uint32_t *references, size_t references_len,
    const uint32_t *seeds, size_t seeds_len,
    const uint8_t *flips, size_t flips_len, const uint8_t *perms, size_t perms_len, const uint8_t *greys, size_t greys_len,
    const uint32_t *labels, size_t labels_len, const uint32_t *grey_labels, size_t grey_labels_len,
    const uint32_t *counts, size_t counts_len, const uint32_t *sizes, size_t sizes_len,
    const uint8_t *member_sites, size_t member_sites_len,
    const uint32_t *found, size_t found_len, const uint32_t *grey_found, size_t grey_found_len) {
    NUMBER(testing, mode), NUMBER(testing, form), NUMBER(testing, keeps), NUMBER(testing, n), NUMBER(testing, d);
    NUMBER(testing, s), NUMBER(testing, t), NUMBER(testing, r), NUMBER(testing, members);
    PINS(testing), OWNERS(testing);
    BUFFER(testing, spins), BUFFER(testing, totals), BUFFER(testing, fwd), BUFFER(testing, bwd);
    BUFFER(testing, couplings), BUFFER(testing, order), BUFFER(testing, masks), BUFFER(testing, temperatures);
    BUFFER(testing, cuts), BUFFER(testing, references), BUFFER(testing, seeds), BUFFER(testing, flips);
    BUFFER(testing, perms), BUFFER(testing, greys), BUFFER(testing, labels), BUFFER(testing, grey_labels);
    BUFFER(testing, counts), BUFFER(testing, sizes), BUFFER(testing, member_sites), BUFFER(testing, found);
    BUFFER(testing, grey_found);
    return 124;
}

uint8_t tsorvenk_task_label(uint8_t mode, uint8_t form, size_t n, size_t d, size_t members,
    const int8_t *rows, size_t rows_len,
    const uint32_t *fwd, size_t fwd_len, const uint32_t *bwd, size_t bwd_len, const uint8_t *pins, size_t pins_len,
    const int32_t *couplings, size_t couplings_len,
    float temperature, const float *cuts, size_t cuts_len, size_t reference, size_t seed,
    const uint8_t *flips, size_t flips_len, const uint8_t *perms, size_t perms_len, const uint8_t *greys, size_t greys_len,
    uint32_t *labels, size_t labels_len, uint32_t *grey_labels, size_t grey_labels_len,
    uint32_t *counts, size_t counts_len, uint32_t *sizes, size_t sizes_len,
    uint8_t *member_sites, size_t member_sites_len,
    uint32_t *found, size_t found_len, uint32_t *grey_found, size_t grey_found_len, uint8_t *blue, size_t blue_len) {
    NUMBER(labelling, mode), NUMBER(labelling, form), NUMBER(labelling, n), NUMBER(labelling, d);
    NUMBER(labelling, members), NUMBER(labelling, temperature), NUMBER(labelling, reference);
    NUMBER(labelling, seed);
    PINS(labelling);
    BUFFER(labelling, rows), BUFFER(labelling, fwd), BUFFER(labelling, bwd), BUFFER(labelling, couplings);
    BUFFER(labelling, cuts), BUFFER(labelling, flips), BUFFER(labelling, perms), BUFFER(labelling, greys);
    BUFFER(labelling, labels), BUFFER(labelling, grey_labels), BUFFER(labelling, counts), BUFFER(labelling, sizes);
    BUFFER(labelling, member_sites), BUFFER(labelling, found), BUFFER(labelling, grey_found);
    BUFFER(labelling, blue);
    return 125;
}

uint8_t tsorvenk_task_choose(uint8_t mode, uint8_t form, size_t n, size_t d, size_t members,
    const int8_t *rows, size_t rows_len, const uint8_t *pins, size_t pins_len, size_t reference, size_t seed,
    const uint8_t *flips, size_t flips_len, const uint8_t *perms, size_t perms_len, const uint8_t *greys, size_t greys_len,
    const uint32_t *labels, size_t labels_len, const uint32_t *grey_labels, size_t grey_labels_len,
    const uint8_t *member_sites, size_t member_sites_len, const uint8_t *blue, size_t blue_len,
    uint8_t *area, size_t area_len) {
    NUMBER(choosing, mode), NUMBER(choosing, form), NUMBER(choosing, n), NUMBER(choosing, d);
    NUMBER(choosing, members), NUMBER(choosing, reference), NUMBER(choosing, seed);
    PINS(choosing);
    BUFFER(choosing, rows), BUFFER(choosing, flips), BUFFER(choosing, perms), BUFFER(choosing, greys);
    BUFFER(choosing, labels), BUFFER(choosing, grey_labels), BUFFER(choosing, member_sites);
    BUFFER(choosing, blue), BUFFER(choosing, area);
    return 126;
}

uint8_t tsorvenk_task_write(uint8_t mode, uint8_t form, uint8_t keeps, size_t n, size_t d, size_t members,
    int8_t *rows, size_t rows_len, int64_t *totals, size_t totals_len,
    const uint32_t *fwd, size_t fwd_len, const uint32_t *bwd, size_t bwd_len, const int32_t *couplings, size_t couplings_len,
    const uint8_t *member_sites, size_t member_sites_len, const uint8_t *area, size_t area_len) {
    NUMBER(task, mode), NUMBER(task, form), NUMBER(task, keeps), NUMBER(task, n), NUMBER(task, d);
    NUMBER(task, members);
    BUFFER(task, rows), BUFFER(task, totals), BUFFER(task, fwd), BUFFER(task, bwd), BUFFER(task, couplings);
    BUFFER(task, member_sites), BUFFER(task, area);
    return 127;
}

static void call_all(void) {
    held(tsorvenk_test_sweep_with(&testing) == 124, "test_sweep", "the answer");
    held(tsorvenk_task_label_with(&labelling) == 125, "task_label", "the answer");
    held(tsorvenk_task_choose_with(&choosing) == 126, "task_choose", "the answer");
    held(tsorvenk_task_write_with(&task) == 127, "task_write", "the answer");
}

int main(void) {
    call_all(); /* everything is left out */
    testing = (struct tsorvenk_test_sweep_args){
        .mode = 1, .form = 2, .keeps = 9, .n = 3, .d = 4, .s = 5, .t = 6, .r = 7, .members = 8,
        .team = 34, .owners = u8 + 6, .owners_len = 35, .totals = i64, .totals_len = 29,
        .spins = i8, .spins_len = 10, .fwd = u32, .fwd_len = 11, .bwd = u32 + 1, .bwd_len = 12,
        .couplings = i32, .couplings_len = 13, .order = u32 + 2, .order_len = 14, .masks = u8, .masks_len = 15,
        .temperatures = f32, .temperatures_len = 16, .cuts = f32 + 1, .cuts_len = 17,
        .references = u32 + 3, .references_len = 18, .seeds = u32 + 4, .seeds_len = 19,
        .flips = u8 + 1, .flips_len = 20, .perms = u8 + 2, .perms_len = 21, .greys = u8 + 3, .greys_len = 22,
        .labels = u32 + 5, .labels_len = 23, .grey_labels = u32 + 6, .grey_labels_len = 24,
        .counts = u32 + 7, .counts_len = 25, .sizes = u32 + 8, .sizes_len = 26,
        .member_sites = u8 + 4, .member_sites_len = 28, .pins = u8 + 5, .pins_len = 33,
        .found = u32 + 10, .found_len = 30, .grey_found = u32 + 11, .grey_found_len = 31,
    };
    labelling = (struct tsorvenk_task_label_args){
        .mode = 1, .form = 2, .n = 3, .d = 4, .members = 5, .temperature = 6, .reference = 7, .seed = 8,
        .rows = i8, .rows_len = 10, .fwd = u32, .fwd_len = 11, .bwd = u32 + 1, .bwd_len = 12,
        .couplings = i32, .couplings_len = 13, .cuts = f32, .cuts_len = 15,
        .flips = u8, .flips_len = 16, .perms = u8 + 1, .perms_len = 17, .greys = u8 + 2, .greys_len = 18,
        .labels = u32 + 3, .labels_len = 19, .grey_labels = u32 + 4, .grey_labels_len = 20,
        .counts = u32 + 5, .counts_len = 21, .sizes = u32 + 6, .sizes_len = 22,
        .member_sites = u8 + 3, .member_sites_len = 23, .pins = u8 + 4, .pins_len = 27,
        .found = u32 + 7, .found_len = 25, .grey_found = u32 + 8, .grey_found_len = 26, .blue = u8 + 5, .blue_len = 28,
    };
    choosing = (struct tsorvenk_task_choose_args){
        .mode = 1, .form = 2, .n = 3, .d = 4, .members = 5, .reference = 6, .seed = 7, .rows = i8, .rows_len = 10,
        .pins = u8, .pins_len = 11, .flips = u8 + 1, .flips_len = 12, .perms = u8 + 2, .perms_len = 13,
        .greys = u8 + 3, .greys_len = 14, .labels = u32, .labels_len = 15, .grey_labels = u32 + 1, .grey_labels_len = 16,
        .member_sites = u8 + 4, .member_sites_len = 17, .blue = u8 + 5, .blue_len = 18, .area = u8 + 6, .area_len = 19,
    };
    task = (struct tsorvenk_task_write_args){
        .mode = 1, .form = 2, .keeps = 3, .n = 4, .d = 5, .members = 6, .rows = i8, .rows_len = 10, .totals = i64, .totals_len = 11,
        .fwd = u32, .fwd_len = 12, .bwd = u32 + 1, .bwd_len = 13, .couplings = i32, .couplings_len = 14,
        .member_sites = u8, .member_sites_len = 15, .area = u8 + 1, .area_len = 16,
    };
    call_all(); /* everything is lent */
    testing.spins = NULL, testing.seeds = NULL, testing.found = NULL, labelling.rows = NULL, labelling.blue = NULL;
    choosing.labels = NULL, choosing.area = NULL, task.rows = NULL, task.totals = NULL, task.area = NULL;
    testing.pins = NULL, labelling.pins = NULL, choosing.pins = NULL, testing.owners = NULL;
    call_all(); /* null, and a length beside it */
    testing.n = 4096, testing.s = 64, labelling.n = 4096, choosing.n = 4096;
    call_all(); /* as many sites as there may be */
    testing.n = 4097, testing.s = (size_t)-1, labelling.n = 4097, choosing.n = (size_t)-1;
    call_all(); /* and more: no more than the table is lent */
    return 0;
}
