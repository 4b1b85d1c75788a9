/* The calls with named fields of include/tsorvenk.h over stand-ins of the exported functions: each field must reach
 * the argument of its name, and a buffer that is left out must get a pointer that is not null, with length 0, but pins and
 * owners that are left out zeros. Then the words of every number, and the room for frames, are printed for the Rust crate to be held to. */
#include "named.h"

/* what the stand-ins must be given; every number and pointer in it is another */
static struct tsorvenk_step_args step;
static struct tsorvenk_sweep_args sweep;
static struct tsorvenk_pack_args packing;
static struct tsorvenk_unpack_args unpacking;
static struct tsorvenk_packed_step_args packed;
static struct tsorvenk_check_vendor_args vendor;
static struct tsorvenk_energy_args energy_of;
static struct tsorvenk_hand_over_args handed;
static struct tsorvenk_label_args label;
static struct tsorvenk_draw_args draw;
static struct tsorvenk_read_edges_args reading;
static struct tsorvenk_write_edges_args writing;

static int8_t i8[2];
static uint8_t u8[16];
static int32_t i32[2];
static uint32_t u32[16];
static float f32[4];
static int64_t i64[2];
static uint64_t u64[2];
static size_t sizes_of[1];

uint8_t tsorvenk_step(uint8_t mode, uint8_t form, uint8_t coding, uint8_t keeps, size_t n, size_t d, size_t s,
    uint8_t team, const uint8_t *owners, size_t owners_len,
    int8_t *spins, size_t spins_len, int64_t *totals, size_t totals_len,
    const uint32_t *fwd, size_t fwd_len, const uint32_t *bwd, size_t bwd_len, const uint8_t *pins, size_t pins_len,
    const int32_t *couplings, size_t couplings_len, const uint32_t *group, size_t group_len,
    float temperature, const float *cuts, size_t cuts_len, size_t reference, size_t seed,
    const uint8_t *flips, size_t flips_len, const uint8_t *perms, size_t perms_len, const uint8_t *greys, size_t greys_len,
    uint32_t *labels, size_t labels_len, uint32_t *grey_labels, size_t grey_labels_len,
    uint32_t *counts, size_t counts_len, uint32_t *sizes, size_t sizes_len,
    uint8_t *member_sites, size_t member_sites_len,
    uint32_t *found, size_t found_len, uint32_t *grey_found, size_t grey_found_len) {
    NUMBER(step, mode), NUMBER(step, form), NUMBER(step, coding), NUMBER(step, keeps);
    NUMBER(step, n), NUMBER(step, d), NUMBER(step, s), BUFFER(step, totals);
    NUMBER(step, temperature), NUMBER(step, reference), NUMBER(step, seed);
    PINS(step), OWNERS(step);
    BUFFER(step, spins), BUFFER(step, fwd), BUFFER(step, bwd), BUFFER(step, couplings), BUFFER(step, group);
    BUFFER(step, cuts), BUFFER(step, flips), BUFFER(step, perms), BUFFER(step, greys);
    BUFFER(step, labels), BUFFER(step, grey_labels), BUFFER(step, counts), BUFFER(step, sizes);
    BUFFER(step, member_sites), BUFFER(step, found), BUFFER(step, grey_found);
    return 101;
}

uint8_t tsorvenk_sweep(uint8_t mode, uint8_t form, uint8_t coding, uint8_t keeps, size_t n, size_t d, size_t s,
    uint8_t team, size_t t, size_t r, size_t members, const uint8_t *owners, size_t owners_len,
    int8_t *spins, size_t spins_len, int64_t *totals, size_t totals_len,
    const uint32_t *fwd, size_t fwd_len, const uint32_t *bwd, size_t bwd_len, const uint8_t *pins, size_t pins_len,
    const int32_t *couplings, size_t couplings_len, const uint32_t *order, size_t order_len,
    const uint8_t *masks, size_t masks_len, const float *temperatures, size_t temperatures_len,
    const float *cuts, size_t cuts_len, const uint32_t *references, size_t references_len,
    const uint32_t *seeds, size_t seeds_len,
    const uint8_t *flips, size_t flips_len, const uint8_t *perms, size_t perms_len, const uint8_t *greys, size_t greys_len,
    uint32_t *labels, size_t labels_len, uint32_t *grey_labels, size_t grey_labels_len,
    uint32_t *counts, size_t counts_len, uint32_t *sizes, size_t sizes_len,
    uint8_t *member_sites, size_t member_sites_len,
    uint32_t *found, size_t found_len, uint32_t *grey_found, size_t grey_found_len,
    uint32_t *outcomes, size_t outcomes_len) {
    NUMBER(sweep, mode), NUMBER(sweep, form), NUMBER(sweep, coding), NUMBER(sweep, keeps);
    NUMBER(sweep, n), NUMBER(sweep, d), NUMBER(sweep, s), BUFFER(sweep, totals);
    NUMBER(sweep, t), NUMBER(sweep, r), NUMBER(sweep, members);
    PINS(sweep), OWNERS(sweep);
    BUFFER(sweep, spins), BUFFER(sweep, fwd), BUFFER(sweep, bwd), BUFFER(sweep, couplings), BUFFER(sweep, order);
    BUFFER(sweep, masks), BUFFER(sweep, temperatures), BUFFER(sweep, cuts), BUFFER(sweep, references);
    BUFFER(sweep, seeds), BUFFER(sweep, flips), BUFFER(sweep, perms), BUFFER(sweep, greys);
    BUFFER(sweep, labels), BUFFER(sweep, grey_labels), BUFFER(sweep, counts), BUFFER(sweep, sizes);
    BUFFER(sweep, member_sites), BUFFER(sweep, found), BUFFER(sweep, grey_found), BUFFER(sweep, outcomes);
    return 102;
}

uint8_t tsorvenk_pack(size_t n, size_t members, const int8_t *rows, size_t rows_len, uint8_t *columns, size_t columns_len) {
    NUMBER(packing, n), NUMBER(packing, members), BUFFER(packing, rows), BUFFER(packing, columns);
    return 120;
}

uint8_t tsorvenk_unpack(size_t n, size_t members, const uint8_t *columns, size_t columns_len, int8_t *rows, size_t rows_len) {
    NUMBER(unpacking, n), NUMBER(unpacking, members), BUFFER(unpacking, columns), BUFFER(unpacking, rows);
    return 121;
}

uint8_t tsorvenk_packed_step(uint8_t mode, uint8_t form, uint8_t coding, uint8_t keeps, size_t n, size_t d, size_t members,
    uint8_t *columns, size_t columns_len, int64_t *totals, size_t totals_len,
    const uint32_t *fwd, size_t fwd_len, const uint32_t *bwd, size_t bwd_len, const uint8_t *pins, size_t pins_len,
    const int32_t *couplings, size_t couplings_len,
    float temperature, const float *cuts, size_t cuts_len, size_t reference, size_t seed,
    const uint8_t *flips, size_t flips_len, const uint8_t *perms, size_t perms_len, const uint8_t *greys, size_t greys_len,
    uint32_t *labels, size_t labels_len, uint32_t *grey_labels, size_t grey_labels_len,
    uint32_t *counts, size_t counts_len, uint32_t *sizes, size_t sizes_len,
    uint8_t *member_sites, size_t member_sites_len,
    uint32_t *found, size_t found_len, uint32_t *grey_found, size_t grey_found_len) {
    NUMBER(packed, mode), NUMBER(packed, form), NUMBER(packed, coding), NUMBER(packed, keeps);
    NUMBER(packed, n), NUMBER(packed, d), NUMBER(packed, members), BUFFER(packed, totals);
    NUMBER(packed, temperature), NUMBER(packed, reference), NUMBER(packed, seed);
    PINS(packed);
    BUFFER(packed, columns), BUFFER(packed, fwd), BUFFER(packed, bwd), BUFFER(packed, couplings);
    BUFFER(packed, cuts), BUFFER(packed, flips), BUFFER(packed, perms), BUFFER(packed, greys);
    BUFFER(packed, labels), BUFFER(packed, grey_labels), BUFFER(packed, counts), BUFFER(packed, sizes);
    BUFFER(packed, member_sites), BUFFER(packed, found), BUFFER(packed, grey_found);
    return 122;
}

uint8_t tsorvenk_check_vendor(uint8_t mode, size_t n, size_t d, size_t members, size_t reference,
    const uint32_t *fwd, size_t fwd_len, const uint32_t *bwd, size_t bwd_len, const uint8_t *pins, size_t pins_len,
    const int8_t *before, size_t before_len, const int8_t *after, size_t after_len,
    uint8_t *rows, size_t rows_len, uint32_t *fault, size_t fault_len) {
    NUMBER(vendor, mode), NUMBER(vendor, n), NUMBER(vendor, d), NUMBER(vendor, members), NUMBER(vendor, reference);
    PINS(vendor);
    BUFFER(vendor, fwd), BUFFER(vendor, bwd), BUFFER(vendor, before), BUFFER(vendor, after);
    BUFFER(vendor, rows), BUFFER(vendor, fault);
    return 123;
}

uint8_t tsorvenk_energy(size_t n, size_t d, size_t s, uint8_t team, const uint8_t *owners, size_t owners_len,
    const int8_t *spins, size_t spins_len, const uint32_t *fwd, size_t fwd_len, const uint32_t *bwd, size_t bwd_len,
    const int32_t *couplings, size_t couplings_len, size_t system, int64_t *energy, size_t energy_len) {
    NUMBER(energy_of, n), NUMBER(energy_of, d), NUMBER(energy_of, s), NUMBER(energy_of, system);
    OWNERS(energy_of);
    BUFFER(energy_of, spins), BUFFER(energy_of, fwd), BUFFER(energy_of, bwd), BUFFER(energy_of, couplings);
    BUFFER(energy_of, energy);
    return 103;
}

uint8_t tsorvenk_hand_over(size_t n, size_t d, size_t s, uint8_t team, const uint8_t *owners, size_t owners_len,
    const int8_t *spins, size_t spins_len, const int64_t *totals, size_t totals_len,
    const uint32_t *fwd, size_t fwd_len, const uint32_t *bwd, size_t bwd_len,
    const int32_t *couplings, size_t couplings_len) {
    NUMBER(handed, n), NUMBER(handed, d), NUMBER(handed, s);
    OWNERS(handed);
    BUFFER(handed, spins), BUFFER(handed, totals), BUFFER(handed, fwd), BUFFER(handed, bwd), BUFFER(handed, couplings);
    return 117;
}

uint8_t tsorvenk_label(size_t n, size_t d, const uint32_t *fwd, size_t fwd_len, const uint8_t *holds, size_t holds_len,
    const uint8_t *counted, size_t counted_len, uint32_t *labels, size_t labels_len, uint32_t *counts, size_t counts_len,
    uint32_t *sizes, size_t sizes_len, uint32_t *found, size_t found_len) {
    NUMBER(label, n), NUMBER(label, d);
    BUFFER(label, fwd), BUFFER(label, holds), BUFFER(label, counted), BUFFER(label, labels), BUFFER(label, counts);
    BUFFER(label, sizes), BUFFER(label, found);
    return 104;
}

uint8_t tsorvenk_word(uint64_t *source, size_t source_len, uint64_t *word, size_t word_len) {
    BUFFER(draw, source), BUFFER(draw, word);
    return 105;
}

uint8_t tsorvenk_coin(uint64_t *source, size_t source_len, uint8_t *coin, size_t coin_len) {
    BUFFER(draw, source), BUFFER(draw, coin);
    return 106;
}

uint8_t tsorvenk_below(uint32_t m, uint64_t *source, size_t source_len, uint32_t *number, size_t number_len) {
    NUMBER(draw, m), BUFFER(draw, source), BUFFER(draw, number);
    return 107;
}

uint8_t tsorvenk_permutation(size_t members, uint64_t *source, size_t source_len, uint8_t *row, size_t row_len) {
    NUMBER(draw, members), BUFFER(draw, source), BUFFER(draw, row);
    return 108;
}

uint8_t tsorvenk_fill_flips(uint64_t *source, size_t source_len, uint8_t *flips, size_t flips_len) {
    BUFFER(draw, source), BUFFER(draw, flips);
    return 109;
}

uint8_t tsorvenk_fill_below(uint32_t m, uint64_t *source, size_t source_len, uint32_t *numbers, size_t numbers_len) {
    NUMBER(draw, m), BUFFER(draw, source), BUFFER(draw, numbers);
    return 110;
}

uint8_t tsorvenk_fill_bytes_below(uint32_t m, uint64_t *source, size_t source_len, uint8_t *bytes, size_t bytes_len) {
    NUMBER(draw, m), BUFFER(draw, source), BUFFER(draw, bytes);
    return 111;
}

uint8_t tsorvenk_fill_permutations(size_t members, uint64_t *source, size_t source_len, uint8_t *rows, size_t rows_len) {
    NUMBER(draw, members), BUFFER(draw, source), BUFFER(draw, rows);
    return 112;
}

uint8_t tsorvenk_wolff_permutation(size_t members, uint64_t *source, size_t source_len, uint8_t *rows, size_t rows_len) {
    NUMBER(draw, members), BUFFER(draw, source), BUFFER(draw, rows);
    return 113;
}

uint8_t tsorvenk_wolff_grey(uint64_t *source, size_t source_len, uint8_t *greys, size_t greys_len) {
    BUFFER(draw, source), BUFFER(draw, greys);
    return 114;
}

uint8_t tsorvenk_fill_numbers(uint64_t *source, size_t source_len, uint8_t *perms, size_t perms_len) {
    BUFFER(draw, source), BUFFER(draw, perms);
    return 118;
}

uint8_t tsorvenk_wolff_numbers(uint64_t *source, size_t source_len, uint8_t *perms, size_t perms_len) {
    BUFFER(draw, source), BUFFER(draw, perms);
    return 119;
}

uint8_t tsorvenk_read_edges(size_t n, size_t d, const uint32_t *fwd, size_t fwd_len, const uint32_t *bwd, size_t bwd_len,
    const uint8_t *text, size_t text_len, int32_t *couplings, size_t couplings_len) {
    NUMBER(reading, n), NUMBER(reading, d);
    BUFFER(reading, fwd), BUFFER(reading, bwd), BUFFER(reading, text), BUFFER(reading, couplings);
    return 115;
}

uint8_t tsorvenk_write_edges(size_t n, size_t d, const uint32_t *fwd, size_t fwd_len, const uint32_t *bwd, size_t bwd_len,
    const int32_t *couplings, size_t couplings_len, uint8_t *text, size_t text_len, size_t *written, size_t written_len) {
    NUMBER(writing, n), NUMBER(writing, d);
    BUFFER(writing, fwd), BUFFER(writing, bwd), BUFFER(writing, couplings), BUFFER(writing, text);
    BUFFER(writing, written);
    return 116;
}

static void call_all(void) {
    held(tsorvenk_step_with(&step) == 101, "step", "the answer");
    held(tsorvenk_sweep_with(&sweep) == 102, "sweep", "the answer");
    held(tsorvenk_pack_with(&packing) == 120, "pack", "the answer");
    held(tsorvenk_unpack_with(&unpacking) == 121, "unpack", "the answer");
    held(tsorvenk_packed_step_with(&packed) == 122, "packed_step", "the answer");
    held(tsorvenk_check_vendor_with(&vendor) == 123, "check_vendor", "the answer");
    held(tsorvenk_energy_with(&energy_of) == 103, "energy", "the answer");
    held(tsorvenk_hand_over_with(&handed) == 117, "hand_over", "the answer");
    held(tsorvenk_label_with(&label) == 104, "label", "the answer");
    held(tsorvenk_word_with(&draw) == 105, "word", "the answer");
    held(tsorvenk_coin_with(&draw) == 106, "coin", "the answer");
    held(tsorvenk_below_with(&draw) == 107, "below", "the answer");
    held(tsorvenk_permutation_with(&draw) == 108, "permutation", "the answer");
    held(tsorvenk_fill_flips_with(&draw) == 109, "fill_flips", "the answer");
    held(tsorvenk_fill_below_with(&draw) == 110, "fill_below", "the answer");
    held(tsorvenk_fill_bytes_below_with(&draw) == 111, "fill_bytes_below", "the answer");
    held(tsorvenk_fill_permutations_with(&draw) == 112, "fill_permutations", "the answer");
    held(tsorvenk_wolff_permutation_with(&draw) == 113, "wolff_permutation", "the answer");
    held(tsorvenk_wolff_grey_with(&draw) == 114, "wolff_grey", "the answer");
    held(tsorvenk_fill_numbers_with(&draw) == 118, "fill_numbers", "the answer");
    held(tsorvenk_wolff_numbers_with(&draw) == 119, "wolff_numbers", "the answer");
    held(tsorvenk_read_edges_with(&reading) == 115, "read_edges", "the answer");
    held(tsorvenk_write_edges_with(&writing) == 116, "write_edges", "the answer");
}

int main(void) {
    call_all(); /* everything is left out */
    step = (struct tsorvenk_step_args){
        .mode = 1, .form = 2, .coding = 32, .keeps = 9, .n = 3, .d = 4, .s = 5, .temperature = 6, .reference = 7, .seed = 8,
        .team = 33, .owners = u8 + 5, .owners_len = 28, .totals = i64, .totals_len = 24,
        .spins = i8, .spins_len = 10, .fwd = u32, .fwd_len = 11, .bwd = u32 + 1, .bwd_len = 12,
        .couplings = i32, .couplings_len = 13, .group = u32 + 2, .group_len = 14, .cuts = f32, .cuts_len = 15,
        .flips = u8, .flips_len = 16, .perms = u8 + 1, .perms_len = 17, .greys = u8 + 2, .greys_len = 18,
        .labels = u32 + 3, .labels_len = 19, .grey_labels = u32 + 4, .grey_labels_len = 20,
        .counts = u32 + 5, .counts_len = 21, .sizes = u32 + 6, .sizes_len = 22,
        .member_sites = u8 + 3, .member_sites_len = 23, .pins = u8 + 4, .pins_len = 27,
        .found = u32 + 7, .found_len = 25, .grey_found = u32 + 8, .grey_found_len = 26,
    };
    sweep = (struct tsorvenk_sweep_args){
        .mode = 1, .form = 2, .coding = 32, .keeps = 9, .n = 3, .d = 4, .s = 5, .t = 6, .r = 7, .members = 8,
        .team = 34, .owners = u8 + 6, .owners_len = 35, .totals = i64, .totals_len = 29,
        .spins = i8, .spins_len = 10, .fwd = u32, .fwd_len = 11, .bwd = u32 + 1, .bwd_len = 12,
        .couplings = i32, .couplings_len = 13, .order = u32 + 2, .order_len = 14, .masks = u8, .masks_len = 15,
        .temperatures = f32, .temperatures_len = 16, .cuts = f32 + 1, .cuts_len = 17,
        .references = u32 + 3, .references_len = 18, .seeds = u32 + 4, .seeds_len = 19,
        .flips = u8 + 1, .flips_len = 20, .perms = u8 + 2, .perms_len = 21, .greys = u8 + 3, .greys_len = 22,
        .labels = u32 + 5, .labels_len = 23, .grey_labels = u32 + 6, .grey_labels_len = 24,
        .counts = u32 + 7, .counts_len = 25, .sizes = u32 + 8, .sizes_len = 26, .outcomes = u32 + 9, .outcomes_len = 27,
        .member_sites = u8 + 4, .member_sites_len = 28, .pins = u8 + 5, .pins_len = 33,
        .found = u32 + 10, .found_len = 30, .grey_found = u32 + 11, .grey_found_len = 31,
    };
    packing = (struct tsorvenk_pack_args){
        .n = 1, .members = 2, .rows = i8, .rows_len = 10, .columns = u8, .columns_len = 11,
    };
    unpacking = (struct tsorvenk_unpack_args){
        .n = 1, .members = 2, .columns = u8, .columns_len = 10, .rows = i8, .rows_len = 11,
    };
    packed = (struct tsorvenk_packed_step_args){
        .mode = 1, .form = 2, .coding = 32, .keeps = 9, .n = 3, .d = 4, .members = 5, .temperature = 6, .reference = 7, .seed = 8,
        .columns = u8 + 5, .columns_len = 10, .totals = i64, .totals_len = 24,
        .fwd = u32, .fwd_len = 11, .bwd = u32 + 1, .bwd_len = 12,
        .couplings = i32, .couplings_len = 13, .cuts = f32, .cuts_len = 15,
        .flips = u8, .flips_len = 16, .perms = u8 + 1, .perms_len = 17, .greys = u8 + 2, .greys_len = 18,
        .labels = u32 + 3, .labels_len = 19, .grey_labels = u32 + 4, .grey_labels_len = 20,
        .counts = u32 + 5, .counts_len = 21, .sizes = u32 + 6, .sizes_len = 22,
        .member_sites = u8 + 3, .member_sites_len = 23, .pins = u8 + 4, .pins_len = 27,
        .found = u32 + 7, .found_len = 25, .grey_found = u32 + 8, .grey_found_len = 26,
    };
    vendor = (struct tsorvenk_check_vendor_args){
        .mode = 1, .n = 2, .d = 3, .members = 4, .reference = 5, .fwd = u32, .fwd_len = 11, .bwd = u32 + 1, .bwd_len = 12,
        .pins = u8, .pins_len = 13, .before = i8, .before_len = 14, .after = i8 + 1, .after_len = 15,
        .rows = u8 + 1, .rows_len = 16, .fault = u32 + 2, .fault_len = 17,
    };
    energy_of = (struct tsorvenk_energy_args){
        .n = 1, .d = 2, .s = 3, .system = 4, .team = 5, .owners = u8, .owners_len = 15,
        .spins = i8, .spins_len = 10, .fwd = u32, .fwd_len = 11, .bwd = u32 + 1, .bwd_len = 12,
        .couplings = i32, .couplings_len = 13, .energy = i64, .energy_len = 14,
    };
    handed = (struct tsorvenk_hand_over_args){
        .n = 1, .d = 2, .s = 3, .team = 4, .owners = u8, .owners_len = 15,
        .spins = i8, .spins_len = 10, .totals = i64, .totals_len = 11,
        .fwd = u32, .fwd_len = 12, .bwd = u32 + 1, .bwd_len = 13, .couplings = i32, .couplings_len = 14,
    };
    label = (struct tsorvenk_label_args){
        .n = 1, .d = 2, .fwd = u32, .fwd_len = 11, .holds = u8, .holds_len = 12, .counted = u8 + 1, .counted_len = 16,
        .labels = u32 + 1, .labels_len = 13, .counts = u32 + 2, .counts_len = 14, .sizes = u32 + 3, .sizes_len = 15,
        .found = u32 + 4, .found_len = 17,
    };
    draw = (struct tsorvenk_draw_args){
        .m = 1, .members = 2, .source = u64, .source_len = 10, .word = u64 + 1, .word_len = 11,
        .coin = u8, .coin_len = 12, .number = u32, .number_len = 13, .row = u8 + 1, .row_len = 14,
        .flips = u8 + 2, .flips_len = 15, .numbers = u32 + 1, .numbers_len = 16, .bytes = u8 + 3, .bytes_len = 17,
        .rows = u8 + 4, .rows_len = 18, .greys = u8 + 5, .greys_len = 19, .perms = u8 + 6, .perms_len = 20,
    };
    reading = (struct tsorvenk_read_edges_args){
        .n = 1, .d = 2, .fwd = u32, .fwd_len = 11, .bwd = u32 + 1, .bwd_len = 12, .text = u8, .text_len = 13,
        .couplings = i32, .couplings_len = 14,
    };
    writing = (struct tsorvenk_write_edges_args){
        .n = 1, .d = 2, .fwd = u32, .fwd_len = 11, .bwd = u32 + 1, .bwd_len = 12, .couplings = i32, .couplings_len = 13,
        .text = u8, .text_len = 14, .written = sizes_of, .written_len = 15,
    };
    call_all(); /* everything is lent */
    step.flips = NULL, sweep.seeds = NULL, energy_of.energy = NULL, label.holds = NULL, draw.source = NULL;
    step.totals = NULL, sweep.totals = NULL, handed.totals = NULL;
    step.found = NULL, step.grey_found = NULL, sweep.found = NULL, sweep.grey_found = NULL, label.found = NULL;
    step.member_sites = NULL, sweep.member_sites = NULL, reading.text = NULL, writing.written = NULL;
    packing.columns = NULL, unpacking.rows = NULL, packed.columns = NULL, packed.totals = NULL, packed.found = NULL;
    vendor.before = NULL, vendor.rows = NULL, vendor.fault = NULL;
    step.pins = NULL, sweep.pins = NULL, packed.pins = NULL, vendor.pins = NULL;
    step.owners = NULL, sweep.owners = NULL, energy_of.owners = NULL, handed.owners = NULL;
    call_all(); /* null, and a length beside it */
    step.n = 4096, sweep.n = 4096, packed.n = 4096, vendor.n = 4096, step.s = 64, sweep.s = 65, energy_of.s = 4096, handed.s = 0;
    call_all(); /* as many sites as there may be, and more systems than that */
    step.n = 4097, sweep.n = (size_t)-1, packed.n = 4097, vendor.n = (size_t)-1, step.s = 4097, handed.s = (size_t)-1;
    call_all(); /* and more: no more than the table is lent */
    printf("room %d and %d\n", TSORVENK_FRAMES_ROOM, TSORVENK_EDGES_ROOM);
    for (int number = -1; number <= 256; number++)
        printf("%d %s\n", number, tsorvenk_refusal_words(number));
    return 0;
}
