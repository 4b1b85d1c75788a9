/* A small panel through the C interface: a torus of 4 by 4 sites, four systems at two temperatures, one sweep of each
 * mode in the all-clusters form, a sweep that is refused, and one that grows a cluster in each task. Behind each of the first
 * stand the components that were found in its tasks, and the first task's sites by their numbers. The sweeps keep each
 * system's energy as a total, which is metered before them, handed over, and held to the meter after each. Then a group of
 * five is moved by permutations that are lent as numbers, and once more by their rows, and checked as a vendor's. Then some
 * sites are pinned: a sweep of one cluster in each task says how many of them a pin holds, and so does a move. Up to there one
 * team has the whole panel; last, two of its systems go to another, which moves these and leaves what is the first's. The
 * couplings come from an edge list, in the file that is named behind the program, or else in examples/panel.edges; every
 * choice is drawn from one seed, so that each run is the same. panel.rs is the same program in Rust; both print panel.out. */
#include "tsorvenk.h"
#include <stdio.h>
#include <stdlib.h>
#include <string.h>

enum { FIVE = 5, SIDE = 4, N = SIDE * SIDE, D = 2, S = 4, T = 2, R = 2, MEMBERS = 2, TASKS = T * (R / MEMBERS) };

static const char *const NAMES[] = {"houd", "pair", "perm", "gperm", "jorg", "cmr"};
static const float TEMPERATURES[T] = {1.0f, 2.5f};

/* minus the logarithms of eight numbers spread over (0, 1] */
static const float CUTS[8] = {2.7726f, 1.6740f, 1.1632f, 0.8267f, 0.5754f, 0.3747f, 0.2076f, 0.0645f};

/* what a sweep writes */
struct outputs {
    int64_t totals[S];
    int8_t spins[S * N];
    uint32_t labels[TASKS * N], grey_labels[TASKS * N], counts[TASKS * (N + 1)], sizes[TASKS * 4];
    uint32_t found[TASKS], grey_found[TASKS], outcomes[3];
};

/* the draws of one sweep, for every mode */
struct choices {
    float cuts[TASKS * N * D];
    uint32_t references[TASKS];
    uint8_t flips[TASKS * N], perms[TASKS * N * MEMBERS], greys[TASKS * N];
};

static uint32_t fwd[N * D], bwd[N * D];
static int32_t couplings[N * D];
static const uint32_t order[S] = {0, 1, 2, 3};
static const uint8_t masks[T] = {0, 0};

/* what all draws of a run come from: its seed, stepped by each draw */
static uint64_t source[4] = {0x0123456789abcdef, 0xfedcba9876543210, 0x0f1e2d3c4b5a6978, 0x8796a5b4c3d2e1f0};

static void drawn(uint8_t code) {
    if (code) {
        fprintf(stderr, "a draw is refused with %d: %s\n", code, tsorvenk_refusal_words(code));
        exit(1);
    }
}

/* the couplings of the list in a file; then they are written back as a list */
static void read_couplings(const char *path) {
    static uint8_t text[TSORVENK_EDGES_ROOM + 1], back[TSORVENK_EDGES_ROOM];
    FILE *file = fopen(path, "rb");
    size_t length = file ? fread(text, 1, sizeof text, file) : 0, written = 0;
    uint8_t code;
    if (!file || ferror(file)) {
        fprintf(stderr, "%s cannot be read\n", path);
        exit(1);
    }
    fclose(file);
    code = tsorvenk_read_edges(N, D, fwd, N * D, bwd, N * D, text, length, couplings, N * D);
    if (code) {
        fprintf(stderr, "%s is refused with %d: %s\n", path, code, tsorvenk_refusal_words(code));
        exit(1);
    }
    tsorvenk_write_edges(N, D, fwd, N * D, bwd, N * D, couplings, N * D, back, sizeof back, &written, 1);
    printf("edge list\n  %u bytes, %s\n", (unsigned)length,
        written == length && !memcmp(text, back, length) ? "written back as they were" : "written back otherwise");
}

static void make_panel(const char *path, struct outputs *o) {
    uint8_t coins[S * N];
    for (uint32_t i = 0; i < N; i++) {
        uint32_t x = i % SIDE, y = i / SIDE;
        fwd[i * D] = y * SIDE + (x + 1) % SIDE;
        fwd[i * D + 1] = (y + 1) % SIDE * SIDE + x;
        bwd[i * D] = y * SIDE + (x + SIDE - 1) % SIDE;
        bwd[i * D + 1] = (y + SIDE - 1) % SIDE * SIDE + x;
    }
    read_couplings(path);
    memset(o, 0, sizeof *o);
    drawn(tsorvenk_fill_flips(source, 4, coins, S * N));
    for (int k = 0; k < S * N; k++)
        o->spins[k] = coins[k] ? 1 : -1;
}

/* the library draws every choice but the cuts, for which an index is drawn */
static void make_choices(struct choices *c) {
    uint8_t cuts[TASKS * N * D];
    drawn(tsorvenk_fill_bytes_below(8, source, 4, cuts, TASKS * N * D));
    for (int k = 0; k < TASKS * N * D; k++)
        c->cuts[k] = CUTS[cuts[k]];
    drawn(tsorvenk_fill_below(N, source, 4, c->references, TASKS));
    drawn(tsorvenk_fill_flips(source, 4, c->flips, TASKS * N));
    drawn(tsorvenk_fill_permutations(MEMBERS, source, 4, c->perms, TASKS * N * MEMBERS));
    drawn(tsorvenk_fill_bytes_below(4, source, 4, c->greys, TASKS * N));
}

/* what every sweep here takes; what is not named is left out */
static struct tsorvenk_sweep_args lent(uint8_t mode, uint8_t form, const struct choices *c, struct outputs *o) {
    struct tsorvenk_sweep_args args = {
        .mode = mode, .form = form, .keeps = TSORVENK_KEEPS_TOTALS,
        .n = N, .d = D, .s = S, .t = T, .r = R, .members = MEMBERS,
        .spins = o->spins, .spins_len = S * N,
        .totals = o->totals, .totals_len = S,
        .fwd = fwd, .fwd_len = N * D,
        .bwd = bwd, .bwd_len = N * D,
        .couplings = couplings, .couplings_len = N * D,
        .order = order, .order_len = S,
        .masks = masks, .masks_len = T,
        .temperatures = TEMPERATURES, .temperatures_len = T,
        .cuts = c->cuts, .cuts_len = TASKS * N * D,
        .outcomes = o->outcomes, .outcomes_len = 3,
    };
    return args;
}

/* what every form but the one that grows writes beside the spins */
static void take_labels(struct tsorvenk_sweep_args *args, struct outputs *o) {
    args->labels = o->labels, args->labels_len = TASKS * N;
    args->counts = o->counts, args->counts_len = TASKS * (N + 1);
    args->sizes = o->sizes, args->sizes_len = TASKS * 4;
    args->found = o->found, args->found_len = TASKS;
}

/* what only some modes take may be lent in all */
static uint8_t sweep(uint8_t mode, const struct choices *c, struct outputs *o) {
    struct tsorvenk_sweep_args args = lent(mode, TSORVENK_SW, c, o);
    args.references = c->references, args.references_len = TASKS;
    args.flips = c->flips, args.flips_len = TASKS * N;
    args.perms = c->perms, args.perms_len = TASKS * N * MEMBERS;
    args.greys = c->greys, args.greys_len = TASKS * N;
    take_labels(&args, o);
    args.grey_labels = o->grey_labels, args.grey_labels_len = TASKS * N;
    args.grey_found = o->grey_found, args.grey_found_len = TASKS;
    return tsorvenk_sweep_with(&args);
}

/* the first site at which each task's two systems differ: there they act */
static void find_seeds(const struct outputs *o, uint32_t *seeds) {
    for (int k = 0; k < TASKS; k++) {
        const int8_t *a = o->spins + k * MEMBERS * N, *b = a + N;
        for (seeds[k] = 0; seeds[k] < N - 1 && a[seeds[k]] == b[seeds[k]];)
            seeds[k]++;
    }
}

/* one cluster in each task. No labels, counts and sizes are taken */
static uint8_t grow(const struct choices *c, uint8_t *member_sites, struct outputs *o) {
    struct tsorvenk_sweep_args args = lent(TSORVENK_JORG, TSORVENK_GROW, c, o);
    uint32_t seeds[TASKS];
    find_seeds(o, seeds);
    args.seeds = seeds, args.seeds_len = TASKS;
    args.member_sites = member_sites, args.member_sites_len = TASKS * N;
    return tsorvenk_sweep_with(&args);
}

static int64_t meter(const struct outputs *o, size_t system) {
    int64_t energy = 0;
    struct tsorvenk_energy_args args = {
        .n = N, .d = D, .s = S, .spins = o->spins, .spins_len = S * N,
        .fwd = fwd, .fwd_len = N * D, .bwd = bwd, .bwd_len = N * D, .couplings = couplings, .couplings_len = N * D,
        .system = system, .energy = &energy, .energy_len = 1,
    };
    uint8_t code = tsorvenk_energy_with(&args);
    if (code) {
        fprintf(stderr, "the meter is refused with %d: %s\n", code, tsorvenk_refusal_words(code));
        exit(1);
    }
    return energy;
}

static uint8_t hand_over(const struct outputs *o) {
    struct tsorvenk_hand_over_args args = {
        .n = N, .d = D, .s = S, .spins = o->spins, .spins_len = S * N, .totals = o->totals, .totals_len = S,
        .fwd = fwd, .fwd_len = N * D, .bwd = bwd, .bwd_len = N * D, .couplings = couplings, .couplings_len = N * D,
    };
    return tsorvenk_hand_over_with(&args);
}

static void print_grown(uint8_t code, const uint8_t *member_sites, const struct outputs *o) {
    if (code) {
        printf("jorg grown: refused with %d\n", code);
        return;
    }
    printf("jorg grown: %u idle, %u moved; members", (unsigned)o->outcomes[0], (unsigned)o->outcomes[1]);
    for (int k = 0; k < TASKS; k++) {
        unsigned members = 0;
        for (int i = 0; i < N; i++)
            members += member_sites[k * N + i];
        printf("%s %u", k ? "," : "", members);
    }
    printf("\n");
}

static void print_totals(const struct outputs *o) {
    int metered = 1;
    printf("  totals");
    for (size_t k = 0; k < S; k++) {
        metered = metered && o->totals[k] == meter(o, k);
        printf(" %4lld", (long long)o->totals[k]);
    }
    printf(", %s\n", metered ? "as metered" : "metered otherwise");
}

/* the totals are metered once, and handed over; so is one that is wrong */
static void start_totals(struct outputs *o) {
    for (size_t k = 0; k < S; k++)
        o->totals[k] = meter(o, k);
    print_totals(o);
    printf("  handed over: %s\n", tsorvenk_refusal_words(hand_over(o)));
    o->totals[0]++;
    printf("  handed over with one too large: refused with %d\n", hand_over(o));
    o->totals[0]--;
}

/* how many components each task has, those of sites that do not act too, and the number of each site's in the first */
static void print_numbers(const char *what, const uint32_t *found, const uint32_t *labels) {
    printf("  %s", what);
    for (int k = 0; k < TASKS; k++)
        printf("%s %u", k ? "," : "", (unsigned)found[k]);
    printf("; numbers of the first");
    for (int i = 0; i < N; i++)
        printf(" %u", (unsigned)labels[i]);
    printf("\n");
}

static void print_sweep(uint8_t mode, uint8_t code, const struct outputs *o) {
    if (code) {
        printf("%s: refused with %d\n", NAMES[mode], code);
        return;
    }
    printf("%s: %u idle, %u moved; largest components", NAMES[mode], (unsigned)o->outcomes[0], (unsigned)o->outcomes[1]);
    for (int k = 0; k < TASKS; k++)
        printf("%s %u %u %u %u", k ? "," : "", (unsigned)o->sizes[k * 4], (unsigned)o->sizes[k * 4 + 1],
            (unsigned)o->sizes[k * 4 + 2], (unsigned)o->sizes[k * 4 + 3]);
    printf("\n");
    print_numbers("found", o->found, o->labels);
    if (mode == TSORVENK_CMR)
        print_numbers("grey found", o->grey_found, o->grey_labels);
}

static uint8_t permute(uint8_t coding, const uint8_t *perms, size_t perms_len, int8_t *spins, struct outputs *o) {
    static const uint32_t group[FIVE] = {0, 1, 2, 3, 4};
    struct tsorvenk_step_args args = {
        .mode = TSORVENK_PERM, .form = TSORVENK_SW, .coding = coding,
        .n = N, .d = D, .s = FIVE, .spins = spins, .spins_len = FIVE * N,
        .fwd = fwd, .fwd_len = N * D, .bwd = bwd, .bwd_len = N * D, .group = group, .group_len = FIVE,
        .perms = perms, .perms_len = perms_len,
        .labels = o->labels, .labels_len = N, .counts = o->counts, .counts_len = N + 1,
        .sizes = o->sizes, .sizes_len = 4, .found = o->found, .found_len = 1,
    };
    return tsorvenk_step_with(&args);
}

/* the move of five, taken for a vendor's: as it is, and with the last spin of the last system turned */
static void check_five(const int8_t *before, int8_t *after) {
    uint8_t rows[FIVE * N] = {0}, code;
    uint32_t fault = 0;
    struct tsorvenk_check_vendor_args args = {
        .mode = TSORVENK_PERM, .n = N, .d = D, .members = FIVE, .fwd = fwd, .fwd_len = N * D, .bwd = bwd, .bwd_len = N * D,
        .before = before, .before_len = FIVE * N, .after = after, .after_len = FIVE * N,
        .rows = rows, .rows_len = FIVE * N, .fault = &fault, .fault_len = 1,
    };
    code = tsorvenk_check_vendor_with(&args);
    printf("  checked as a vendor's: %s, by %u %u %u %u %u first\n", code ? "not accepted" : "accepted", rows[0], rows[1], rows[2],
        rows[3], rows[4]);
    after[FIVE * N - 1] = -after[FIVE * N - 1];
    code = tsorvenk_check_vendor_with(&args);
    printf("  with one spin turned: %s, for component %u\n", code == TSORVENK_NO ? "not accepted" : "accepted", (unsigned)fault);
}

/* five systems are moved by numbers, a byte for each choice, and once more by the rows of these, five bytes each */
static void move_five(struct outputs *o) {
    uint8_t coins[FIVE * N], numbers[N], rows[FIVE * N], number = 0;
    int8_t before[FIVE * N], spins[FIVE * N], again[FIVE * N];
    drawn(tsorvenk_fill_flips(source, 4, coins, FIVE * N));
    drawn(tsorvenk_fill_numbers(source, 4, numbers, N));
    for (int k = 0; k < N; k++)
        tsorvenk_row_of(numbers[k], rows + k * FIVE, FIVE);
    for (int k = 0; k < FIVE * N; k++)
        before[k] = spins[k] = again[k] = coins[k] ? 1 : -1;
    if (permute(TSORVENK_BY_NUMBERS, numbers, N, spins, o) || permute(TSORVENK_BY_ROWS, rows, FIVE * N, again, o)) {
        fprintf(stderr, "a move of five is refused\n");
        exit(1);
    }
    printf("five by %d numbers, and by their rows: %s spins\n", N, memcmp(spins, again, sizeof spins) ? "other" : "the same");
    tsorvenk_number_of(rows, FIVE, &number, 1);
    printf("  the first row is %u %u %u %u %u, and its number %u\n", rows[0], rows[1], rows[2], rows[3], rows[4], number);
    check_five(before, spins);
}

/* a move of the first group's cluster, from this seed */
static uint8_t move_pinned(const uint8_t *pins, uint32_t seed, struct outputs *o) {
    struct tsorvenk_step_args args = {
        .mode = TSORVENK_PAIR, .form = TSORVENK_WOLFF, .keeps = TSORVENK_KEEPS_TOTALS,
        .n = N, .d = D, .s = S, .spins = o->spins, .spins_len = S * N, .totals = o->totals, .totals_len = S,
        .fwd = fwd, .fwd_len = N * D, .bwd = bwd, .bwd_len = N * D, .pins = pins, .pins_len = N,
        .couplings = couplings, .couplings_len = N * D, .group = order, .group_len = MEMBERS, .seed = seed,
        .labels = o->labels, .labels_len = N, .counts = o->counts, .counts_len = N + 1,
        .sizes = o->sizes, .sizes_len = 4, .found = o->found, .found_len = 1,
    };
    return tsorvenk_step_with(&args);
}

/* two sites do not move any more, nor does what hangs together with them: first a sweep of one cluster in each task, then the
 * first of them alone */
static void hold_some(const struct choices *c, struct outputs *o) {
    static const uint8_t pins[N] = {[9] = 1, [14] = 1};
    struct tsorvenk_sweep_args args = lent(TSORVENK_PAIR, TSORVENK_WOLFF, c, o);
    uint32_t seeds[TASKS];
    uint8_t code;
    find_seeds(o, seeds);
    args.pins = pins, args.pins_len = N;
    args.seeds = seeds, args.seeds_len = TASKS;
    take_labels(&args, o);
    code = tsorvenk_sweep_with(&args);
    if (code) {
        printf("pair pinned: refused with %d\n", code);
        return;
    }
    printf("pair pinned: %u idle, %u moved, %u held\n", (unsigned)o->outcomes[0], (unsigned)o->outcomes[1],
        (unsigned)o->outcomes[2]);
    print_totals(o);
    printf("  from site %u: %s\n", (unsigned)seeds[0], tsorvenk_refusal_words(move_pinned(pins, seeds[0], o)));
    print_totals(o);
}

/* the second team has the systems 1 and 3: it exchanges them wherever they differ, at one temperature, and a system of the first is
 * none to it */
static void share(const struct choices *c, struct outputs *o) {
    static const uint8_t owners[S] = {0, 1, 0, 1};
    static const uint32_t own[] = {1, 3}, foreign[] = {1, 2};
    struct tsorvenk_sweep_args args = lent(TSORVENK_PAIR, TSORVENK_SW, c, o);
    struct outputs before = *o;
    uint8_t flips[N], code;
    int kept = 1;
    memset(flips, 1, N);
    args.team = 1, args.owners = owners, args.owners_len = S;
    args.t = 1, args.r = 2, args.order = own, args.order_len = 2, args.masks_len = 1;
    args.flips = flips, args.flips_len = N;
    take_labels(&args, o);
    args.labels_len = N, args.counts_len = N + 1, args.sizes_len = 4, args.found_len = 1;
    code = tsorvenk_sweep_with(&args);
    if (code) {
        printf("two teams: refused with %d\n", code);
        return;
    }
    printf("two teams: %u idle, %u moved\n", (unsigned)o->outcomes[0], (unsigned)o->outcomes[1]);
    for (int k = 0; k < S; k += 2)
        kept = kept && o->totals[k] == before.totals[k] && !memcmp(o->spins + k * N, before.spins + k * N, N);
    printf("  the first team's rows and totals %s\n", kept ? "are as they were" : "were written");
    args.order = foreign;
    printf("  with a system of the first: refused with %d\n", tsorvenk_sweep_with(&args));
    print_totals(o);
}

int main(int argc, char **argv) {
    struct outputs o, before;
    struct choices c;
    uint8_t member_sites[TASKS * N];
    make_panel(argc > 1 ? argv[1] : "examples/panel.edges", &o);
    printf("start\n");
    start_totals(&o);
    for (uint8_t mode = TSORVENK_HOUD; mode <= TSORVENK_CMR; mode++) {
        make_choices(&c);
        print_sweep(mode, sweep(mode, &c, &o), &o);
        print_totals(&o);
    }
    /* a fault in the last task: the first task does not move either */
    make_choices(&c);
    c.flips[TASKS * N - 1] = 2;
    before = o;
    print_sweep(TSORVENK_PAIR, sweep(TSORVENK_PAIR, &c, &o), &o);
    printf("  %s\n", memcmp(&before, &o, sizeof o) ? "buffers were written" : "every buffer is as it was");
    print_totals(&o);
    make_choices(&c);
    print_grown(grow(&c, member_sites, &o), member_sites, &o);
    print_totals(&o);
    move_five(&o);
    hold_some(&c, &o);
    share(&c, &o);
    return 0;
}
