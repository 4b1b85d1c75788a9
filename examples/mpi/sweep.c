/* A sweep's tasks on several machines: rank 0 tests the sweep, hands its tasks to the ranks in turn, merges what comes back and holds
 * it to tsorvenk_sweep on a copy of the panel. One line for each mode and form.
 *
 *     sweep [SIDE [ROUNDS]]      a square of SIDE * SIDE sites, 16 if left out; with ROUNDS, what a task costs is measured too
 *
 * Tables, couplings and pins are sent once. Of a task are sent its rows, its totals, its cuts and choices, and three numbers; back come
 * its answer, rows, totals and outputs. Messages are bytes as they lie in memory: all ranks run on machines of one kind. */
#include "task.h"
#include <stdlib.h>

enum { MOST_ROUNDS = 10001 };

static const char *const modes[] = {"houd", "pair", "perm", "gperm", "Joerg", "CMR"};
static const char *const forms[] = {"SW", "Wolff", "observe", "grow"};

/* The panel and the sweep's buffers, which rank 0 alone has. */
static int8_t spins[2][MOST_SYSTEMS * MOST_SITES];
static int64_t totals[2][MOST_SYSTEMS];
static struct task tasks[2][MOST_TASKS];
static uint64_t source[4] = {1, 2, 3, 4};

static uint32_t below(uint32_t m) {
    uint32_t number = 0;
    must(tsorvenk_below(m, source, 4, &number, 1), "a draw");
    return number;
}

/* A square with a right and a lower neighbour of each site, a few pins, none of them at the seed, and couplings of -3 to 3. */
static void make_lattice(size_t side) {
    for (size_t i = 0; i < n; i++) {
        size_t x = i % side, y = i / side;
        fwd[i * D] = (uint32_t)(y * side + (x + 1) % side), fwd[i * D + 1] = (uint32_t)((y + 1) % side * side + x);
        bwd[i * D] = (uint32_t)(y * side + (x + side - 1) % side), bwd[i * D + 1] = (uint32_t)((y + side - 1) % side * side + x);
        pins[i] = i != 1 && below(32) == 0;
        for (size_t e = 0; e < D; e++)
            couplings[i * D + e] = (int32_t)below(7) - 3;
    }
}

/* Rows whose group differs at two sites in five, so that components are small and pins hold some of them. The seed is the second site,
 * which acts in every group but the last; there no site does. In gperm this is so of the rows gauged by the first site. */
static void make_rows(const struct shape *shape, size_t r, int8_t *row) {
    static int8_t base[MOST_SITES];
    static uint8_t acting[MOST_SITES];
    for (size_t k = 0; k < T * r; k++, row += n) {
        size_t place = k % r % shape->members, idle = k >= (T - 1) * r + shape->members;
        int8_t gauge = shape->mode == TSORVENK_GPERM && place % 2 ? -1 : 1;
        for (size_t i = 0; i < n; i++) {
            if (place == 0)
                base[i] = below(2) ? 1 : -1, acting[i] = !idle && i != 0 && (i == 1 || below(5) < 2);
            row[i] = (int8_t)(gauge * (acting[i] && (i == 1 ? place % 2 : below(2)) ? -base[i] : base[i]));
        }
    }
}

/* What each task is lent. */
static void make_run(const struct shape *shape, size_t r, size_t count) {
    size_t members = shape->members;
    make_rows(shape, r, spins[0]);
    for (size_t k = 0; k < T * r; k++)
        must(tsorvenk_energy(n, D, T * r, 0, tsorvenk_zeros(), T * r, spins[0], T * r * n, fwd, n * D, bwd, n * D,
            couplings, n * D, k, &totals[0][k], 1), "the meter");
    for (size_t q = 0; q < count; q++) {
        struct task *task = &tasks[0][q];
        memset(task, 0, sizeof *task);
        task->temperature = 1.0f + (float)(q / (r / members));
        task->seed = 1;
        for (size_t k = 0; k < shape->cuts; k++)
            task->cuts[k] = (float)below(64) / 8;
        must(tsorvenk_fill_flips(source, 4, task->flips, shape->flips), "flips");
        must(tsorvenk_wolff_permutation(members, source, 4, task->perms, shape->perms), "permutations");
        must(tsorvenk_wolff_grey(source, 4, task->greys, shape->greys), "grey numbers");
    }
}

/* The buffers of the whole sweep, each task's at its number, made of those of the tasks. */
#define WHOLE(type, field, length) \
    type *field = malloc((count * (length) + 1) * sizeof *field); \
    for (size_t q = 0; q < count; q++) \
        memcpy(field + q * (length), tasks[1][q].field, (length) * sizeof *field)
#define BACK(field, length) \
    for (size_t q = 0; q < count; q++) \
        memcpy(tasks[1][q].field, field + q * (length), (length) * sizeof *field); \
    free(field)

/* The sweep as one call, on a copy: what it leaves is in spins[1], totals[1] and tasks[1]. With test it is only tested. */
static uint8_t whole(const struct shape *shape, size_t r, size_t count, const uint8_t *masks, int test, uint32_t *outcomes) {
    uint32_t order[MOST_SYSTEMS], references[MOST_TASKS] = {0}, seeds[MOST_TASKS];
    float temperatures[T] = {0};
    size_t s = T * r, kept = shape->totals ? s : 0;
    memcpy(spins[1], spins[0], s * n), memcpy(totals[1], totals[0], sizeof totals[0]), memcpy(tasks[1], tasks[0], sizeof tasks[0]);
    for (size_t k = 0; k < s; k++)
        order[k] = (uint32_t)k;
    for (size_t q = 0; q < count; q++)
        seeds[q] = tasks[0][q].seed, temperatures[q / (count / T)] = tasks[0][q].temperature;
    WHOLE(float, cuts, shape->cuts);
    WHOLE(uint8_t, flips, shape->flips);
    WHOLE(uint8_t, perms, shape->perms);
    WHOLE(uint8_t, greys, shape->greys);
    WHOLE(uint32_t, labels, shape->labels);
    WHOLE(uint32_t, grey_labels, shape->grey_labels);
    WHOLE(uint32_t, counts, shape->counts);
    WHOLE(uint32_t, sizes, shape->sizes);
    WHOLE(uint8_t, member_sites, shape->member_sites);
    WHOLE(uint32_t, found, shape->found);
    WHOLE(uint32_t, grey_found, shape->grey_found);
#define SHARED \
    .mode = shape->mode, .form = shape->form, .keeps = shape->keeps, .n = n, .d = D, .s = s, .t = T, .r = r, \
    .members = shape->members, .spins = spins[1], .spins_len = s * n, .totals = totals[1], .totals_len = kept, \
    .fwd = fwd, .fwd_len = n * D, .bwd = bwd, .bwd_len = n * D, .pins = pins, .pins_len = n, \
    .couplings = couplings, .couplings_len = n * D, .order = order, .order_len = s, .masks = masks, .masks_len = T, \
    .temperatures = temperatures, .temperatures_len = T, .cuts = cuts, .cuts_len = count * shape->cuts, \
    .references = references, .references_len = count, .seeds = seeds, .seeds_len = count, \
    .flips = flips, .flips_len = count * shape->flips, .perms = perms, .perms_len = count * shape->perms, \
    .greys = greys, .greys_len = count * shape->greys, .labels = labels, .labels_len = count * shape->labels, \
    .grey_labels = grey_labels, .grey_labels_len = count * shape->grey_labels, \
    .counts = counts, .counts_len = count * shape->counts, .sizes = sizes, .sizes_len = count * shape->sizes, \
    .member_sites = member_sites, .member_sites_len = count * shape->member_sites, \
    .found = found, .found_len = count * shape->found, .grey_found = grey_found, .grey_found_len = count * shape->grey_found
    struct tsorvenk_test_sweep_args tested = {SHARED};
    struct tsorvenk_sweep_args swept = {SHARED, .outcomes = outcomes, .outcomes_len = 3};
    uint8_t number = test ? tsorvenk_test_sweep_with(&tested) : tsorvenk_sweep_with(&swept);
    free(cuts), free(flips), free(perms), free(greys);
    BACK(labels, shape->labels);
    BACK(grey_labels, shape->grey_labels);
    BACK(counts, shape->counts);
    BACK(sizes, shape->sizes);
    BACK(member_sites, shape->member_sites);
    BACK(found, shape->found);
    BACK(grey_found, shape->grey_found);
    return number;
}

static void swap_rows(struct task *task, const struct shape *shape, size_t first, int get) {
    for (size_t k = 0; k < shape->members; k++) {
        int8_t *row = spins[0] + (first + k) * n, *own = task->rows + k * n;
        memcpy(get ? own : row, get ? row : own, n);
        if (shape->totals)
            *(get ? &task->totals[k] : &totals[0][first + k]) = get ? totals[0][first + k] : task->totals[k];
    }
}

static struct message message;

/* Rank 0 sends a task, or takes its turn itself; the other ranks get one each round, and send it back. */
static void one_round(const struct shape *shape, const size_t *turn, size_t count, size_t from, int rank, int ranks) {
    static struct task own;
    int last = count - from < (size_t)ranks ? (int)(count - from) : ranks;
    if (rank > 0 && rank < last) {
        MPI_Recv(message.bytes, sizeof message.bytes, MPI_BYTE, 0, 0, MPI_COMM_WORLD, MPI_STATUS_IGNORE);
        task_out(&message, 1, &own, shape), run_task(&own, shape), task_back(&message, 0, &own, shape);
        MPI_Send(message.bytes, (int)message.at, MPI_BYTE, 0, 0, MPI_COMM_WORLD);
    }
    for (int to = 1; rank == 0 && to < last; to++) {
        task_out(&message, 0, &tasks[0][turn[from + (size_t)to]], shape);
        MPI_Send(message.bytes, (int)message.at, MPI_BYTE, to, 0, MPI_COMM_WORLD);
    }
    if (rank == 0)
        run_task(&tasks[0][turn[from]], shape);
    /* the last that was sent out is the first that is taken back */
    for (int of = last - 1; rank == 0 && of > 0; of--) {
        MPI_Recv(message.bytes, sizeof message.bytes, MPI_BYTE, of, 0, MPI_COMM_WORLD, MPI_STATUS_IGNORE);
        task_back(&message, 1, &tasks[0][turn[from + (size_t)of]], shape);
    }
}

/* One message with the first task to rank 1 and one back, with no step made. */
static void there_and_back(const struct shape *shape, int rank, size_t out, size_t back) {
    struct task *task = &tasks[0][0];
    if (rank == 0) {
        task_out(&message, 0, task, shape);
        MPI_Send(message.bytes, (int)out, MPI_BYTE, 1, 1, MPI_COMM_WORLD);
        MPI_Recv(message.bytes, sizeof message.bytes, MPI_BYTE, 1, 1, MPI_COMM_WORLD, MPI_STATUS_IGNORE);
        task_back(&message, 1, task, shape);
    } else {
        MPI_Recv(message.bytes, sizeof message.bytes, MPI_BYTE, 0, 1, MPI_COMM_WORLD, MPI_STATUS_IGNORE);
        task_out(&message, 1, task, shape), task_back(&message, 0, task, shape);
        MPI_Send(message.bytes, (int)back, MPI_BYTE, 0, 1, MPI_COMM_WORLD);
    }
}

static int ascending(const void *a, const void *b) {
    double one = *(const double *)a, other = *(const double *)b;
    return (one > other) - (one < other);
}

/* Microseconds of the first task as one call, of its three steps and of its messages: medians of so many, each timed for itself. */
static void measure(const struct shape *shape, int rank, int ranks, int rounds, size_t out, size_t back) {
    static double took[3][MOST_ROUNDS];
    for (int k = 0; k < 3 * rounds; k++) {
        int what = k / rounds;
        if (what == 2)
            MPI_Barrier(MPI_COMM_WORLD);
        double began = MPI_Wtime();
        if (what == 0 && rank == 0)
            as_one(&tasks[0][0], shape);
        if (what == 1 && rank == 0)
            run_task(&tasks[0][0], shape);
        if (what == 2 && rank < 2 && ranks > 1)
            there_and_back(shape, rank, out, back);
        took[what][k % rounds] = (MPI_Wtime() - began) * 1e6;
    }
    for (int what = 0; what < 3; what++)
        qsort(took[what], (size_t)rounds, sizeof took[what][0], ascending);
    if (rank == 0)
        printf("    as one call %.1f us, as three steps %.1f us, its messages %.1f us\n",
            took[0][rounds / 2], took[1][rounds / 2], took[2][rounds / 2]);
}

static int equal(size_t systems, size_t count, const uint32_t *outcomes, const uint32_t *expected) {
    int same = !memcmp(spins[0], spins[1], systems * n) && !memcmp(totals[0], totals[1], systems * sizeof totals[0][0]) &&
        !memcmp(outcomes, expected, 3 * sizeof *outcomes);
    for (size_t q = 0; q < count; q++) {
        const struct task *a = &tasks[0][q], *b = &tasks[1][q];
        same = same && !memcmp(a->labels, b->labels, sizeof a->labels) && !memcmp(a->grey_labels, b->grey_labels, sizeof a->labels) &&
            !memcmp(a->counts, b->counts, sizeof a->counts) && !memcmp(a->sizes, b->sizes, sizeof a->sizes) &&
            !memcmp(a->member_sites, b->member_sites, sizeof a->member_sites) &&
            a->found[0] == b->found[0] && a->grey_found[0] == b->grey_found[0];
    }
    return same;
}

/* One sweep, the middle temperature of which is masked. Every rank calls it; false where rank 0 found a difference. */
static int run(uint8_t mode, uint8_t form, size_t members, int rank, int ranks, int rounds) {
    const struct shape shape = shape_of(mode, form, members);
    const uint8_t masks[T] = {0, 1, 0};
    size_t r = 2 * members + 1, count = 2 * T, turn[MOST_TASKS], turns = 0;
    uint32_t outcomes[3] = {0}, expected[3] = {0};
    int same = 1, refused = 0;
    for (size_t q = count; q-- > 0;) /* the last task first */
        if (!masks[q / 2])
            turn[turns++] = q;
    if (rank == 0) {
        make_run(&shape, r, count);
        refused = whole(&shape, r, count, masks, 1, NULL);
        if (!refused)
            must(whole(&shape, r, count, masks, 0, expected), "the sweep");
    }
    MPI_Bcast(&refused, 1, MPI_INT, 0, MPI_COMM_WORLD);
    if (refused) { /* it takes no step */
        if (rank == 0)
            printf("%s %s: refused with %d, %s\n", modes[mode], forms[form], refused, tsorvenk_refusal_words(refused));
        return 0;
    }
    for (size_t k = 0; rank == 0 && k < turns; k++)
        swap_rows(&tasks[0][turn[k]], &shape, turn[k] / 2 * r + turn[k] % 2 * members, 1);
    for (size_t from = 0; from < turns; from += (size_t)ranks)
        one_round(&shape, turn, turns, from, rank, ranks);
    task_out(&message, 0, &tasks[0][0], &shape);
    size_t out = message.at;
    task_back(&message, 0, &tasks[0][0], &shape);
    size_t back = message.at;
    if (rank == 0) {
        for (size_t k = 0; k < turns; k++) {
            swap_rows(&tasks[0][turn[k]], &shape, turn[k] / 2 * r + turn[k] % 2 * members, 0);
            uint8_t answer = tasks[0][turn[k]].answer;
            outcomes[answer == TSORVENK_IDLE ? 0 : answer == TSORVENK_HELD ? 2 : 1]++;
        }
        same = equal(T * r, count, outcomes, expected);
        printf("%s %s, groups of %d, %d sites, %d ranks: %d tasks of %d bytes out and %d back, %u idle, %u moved, %u held: %s\n",
            modes[mode], forms[form], (int)members, (int)n, ranks, (int)turns, (int)out, (int)back,
            outcomes[0], outcomes[1], outcomes[2], same ? "equal" : "NOT EQUAL");
    }
    if (rounds)
        measure(&shape, rank, ranks, rounds, out, back);
    return same;
}

int main(int argc, char **argv) {
    int rank, ranks, same = 1;
    MPI_Init(&argc, &argv);
    MPI_Comm_rank(MPI_COMM_WORLD, &rank), MPI_Comm_size(MPI_COMM_WORLD, &ranks);
    size_t side = argc > 1 ? (size_t)atoi(argv[1]) : 16;
    int rounds = argc > 2 ? atoi(argv[2]) : 0;
    if (side < 2 || side > 64 || rounds < 0 || rounds > MOST_ROUNDS) {
        fprintf(stderr, "a side is 2 to 64, and rounds are at most %d\n", MOST_ROUNDS);
        MPI_Abort(MPI_COMM_WORLD, 2);
    }
    n = side * side;
    if (rank == 0)
        make_lattice(side);
    /* once for all sweeps */
    MPI_Bcast(fwd, (int)(n * D), MPI_UINT32_T, 0, MPI_COMM_WORLD), MPI_Bcast(bwd, (int)(n * D), MPI_UINT32_T, 0, MPI_COMM_WORLD);
    MPI_Bcast(couplings, (int)(n * D), MPI_INT32_T, 0, MPI_COMM_WORLD), MPI_Bcast(pins, (int)n, MPI_UINT8_T, 0, MPI_COMM_WORLD);
    for (uint8_t mode = 0; mode < 6; mode++)
        for (uint8_t form = 0; form < 4; form++)
            for (size_t members = 2; members <= 8; members += 6)
                if (members == 2 || !(mode == TSORVENK_CMR || (mode == TSORVENK_HOUD && form != TSORVENK_OBSERVE)))
                    same = run(mode, form, members, rank, ranks, rounds) && same;
    MPI_Finalize();
    return same ? 0 : 1;
}
