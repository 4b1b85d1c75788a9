/* A task as a rank has it: its buffers, its messages and its three steps. */
#include "tsorvenk.h"
#include <mpi.h>
#include <stdio.h>
#include <string.h>

enum { D = 2, T = 3, MOST_SITES = 4096, MOST_MEMBERS = 8, MOST_SYSTEMS = 64, MOST_TASKS = 6 };

static size_t n;
static uint32_t fwd[MOST_SITES * D], bwd[MOST_SITES * D];
static int32_t couplings[MOST_SITES * D];
static uint8_t pins[MOST_SITES];

/* What a run's tasks are, and how long each buffer of one is: 0 where the mode and form do not take it. */
struct shape {
    uint8_t mode, form, keeps;
    size_t members, totals, cuts, flips, perms, greys, labels, grey_labels, counts, sizes, member_sites, found, grey_found, blue;
};

static struct shape shape_of(uint8_t mode, uint8_t form, size_t members) {
    int moves = form != TSORVENK_OBSERVE, grow = form == TSORVENK_GROW, sw = form == TSORVENK_SW, cmr = mode == TSORVENK_CMR;
    int permutes = mode == TSORVENK_PERM || mode == TSORVENK_GPERM, drawn = mode == TSORVENK_JORG || cmr;
    size_t entries = sw ? n : 1;
    struct shape shape = {
        .mode = mode, .form = form, .keeps = TSORVENK_KEEPS_TOTALS, .members = members, .totals = moves ? members : 0,
        .cuts = drawn ? n * D : 0, .flips = sw && !permutes ? n : 0, .perms = permutes && moves ? entries * members : 0,
        .greys = cmr && moves ? entries : 0, .labels = grow ? 0 : n, .grey_labels = cmr && moves && !grow ? n : 0,
        .counts = grow ? 0 : n + 1, .sizes = grow ? 0 : 4, .member_sites = grow ? n : 0, .found = grow ? 0 : 1,
        .grey_found = cmr && moves && !grow ? 1 : 0, .blue = cmr && grow ? n : 0,
    };
    return shape;
}

/* All buffers of one task. */
struct task {
    float temperature;
    uint32_t reference, seed;
    uint8_t answer;
    int8_t rows[MOST_MEMBERS * MOST_SITES];
    int64_t totals[MOST_MEMBERS];
    float cuts[MOST_SITES * D];
    uint8_t flips[MOST_SITES], perms[MOST_SITES * MOST_MEMBERS], greys[MOST_SITES];
    uint32_t labels[MOST_SITES], grey_labels[MOST_SITES], counts[MOST_SITES + 1], sizes[4], found[1], grey_found[1];
    uint8_t member_sites[MOST_SITES], blue[MOST_SITES], area[MOST_SITES];
};

/* A message: the bytes of one buffer after the other. */
struct message {
    uint8_t bytes[sizeof(struct task)];
    size_t at;
};

static void put_or_get(struct message *message, int get, void *buffer, size_t bytes) {
    if (get)
        memcpy(buffer, message->bytes + message->at, bytes);
    else
        memcpy(message->bytes + message->at, buffer, bytes);
    message->at += bytes;
}

#define FIELD(field) put_or_get(message, get, &task->field, sizeof task->field)
#define BUFFER(field, length) put_or_get(message, get, task->field, (length) * sizeof task->field[0])

/* What a task is sent. */
static void task_out(struct message *message, int get, struct task *task, const struct shape *shape) {
    message->at = 0;
    FIELD(temperature), FIELD(reference), FIELD(seed);
    BUFFER(rows, shape->members * n), BUFFER(totals, shape->totals), BUFFER(cuts, shape->cuts);
    BUFFER(flips, shape->flips), BUFFER(perms, shape->perms), BUFFER(greys, shape->greys);
}

/* What it sends back. */
static void task_back(struct message *message, int get, struct task *task, const struct shape *shape) {
    message->at = 0;
    FIELD(answer);
    BUFFER(rows, shape->members * n), BUFFER(totals, shape->totals), BUFFER(labels, shape->labels);
    BUFFER(grey_labels, shape->grey_labels), BUFFER(counts, shape->counts), BUFFER(sizes, shape->sizes);
    BUFFER(member_sites, shape->member_sites), BUFFER(found, shape->found), BUFFER(grey_found, shape->grey_found);
}

static void must(uint8_t number, const char *what) {
    if (number) {
        fprintf(stderr, "%s: refused with %d, %s\n", what, number, tsorvenk_refusal_words(number));
        MPI_Abort(MPI_COMM_WORLD, 1);
    }
}

/* Idle and held are no refusals. */
static uint8_t accepted(uint8_t number, const char *what) {
    must(number == TSORVENK_IDLE || number == TSORVENK_HELD ? 0 : number, what);
    return number;
}

/* The three steps of one task. A buffer of length 0 is not taken. */
static void run_task(struct task *task, const struct shape *shape) {
    struct tsorvenk_task_label_args label = {
        .mode = shape->mode, .form = shape->form, .n = n, .d = D, .members = shape->members,
        .rows = task->rows, .rows_len = shape->members * n, .fwd = fwd, .fwd_len = n * D, .bwd = bwd, .bwd_len = n * D,
        .pins = pins, .pins_len = n, .couplings = couplings, .couplings_len = n * D, .temperature = task->temperature,
        .cuts = task->cuts, .cuts_len = shape->cuts, .reference = task->reference, .seed = task->seed,
        .flips = task->flips, .flips_len = shape->flips, .perms = task->perms, .perms_len = shape->perms,
        .greys = task->greys, .greys_len = shape->greys, .labels = task->labels, .labels_len = shape->labels,
        .grey_labels = task->grey_labels, .grey_labels_len = shape->grey_labels,
        .counts = task->counts, .counts_len = shape->counts, .sizes = task->sizes, .sizes_len = shape->sizes,
        .member_sites = task->member_sites, .member_sites_len = shape->member_sites,
        .found = task->found, .found_len = shape->found, .grey_found = task->grey_found, .grey_found_len = shape->grey_found,
        .blue = task->blue, .blue_len = shape->blue,
    };
    struct tsorvenk_task_choose_args choose = {
        .mode = shape->mode, .form = shape->form, .n = n, .d = D, .members = shape->members,
        .rows = task->rows, .rows_len = shape->members * n, .pins = pins, .pins_len = n,
        .reference = task->reference, .seed = task->seed, .flips = task->flips, .flips_len = shape->flips,
        .perms = task->perms, .perms_len = shape->perms, .greys = task->greys, .greys_len = shape->greys,
        .labels = task->labels, .labels_len = shape->labels,
        .grey_labels = task->grey_labels, .grey_labels_len = shape->grey_labels,
        .member_sites = task->member_sites, .member_sites_len = shape->member_sites,
        .blue = task->blue, .blue_len = shape->blue, .area = task->area, .area_len = n,
    };
    struct tsorvenk_task_write_args write = {
        .mode = shape->mode, .form = shape->form, .keeps = shape->keeps, .n = n, .d = D, .members = shape->members,
        .rows = task->rows, .rows_len = shape->members * n, .totals = task->totals, .totals_len = shape->totals,
        .fwd = fwd, .fwd_len = n * D, .bwd = bwd, .bwd_len = n * D, .couplings = couplings, .couplings_len = n * D,
        .member_sites = task->member_sites, .member_sites_len = shape->member_sites, .area = task->area, .area_len = n,
    };
    task->answer = accepted(tsorvenk_task_label_with(&label), "label");
    must(tsorvenk_task_choose_with(&choose), "choose");
    must(tsorvenk_task_write_with(&write), "write");
}

/* The task as one call, for its time to be held to that of the three. */
static void as_one(struct task *task, const struct shape *shape) {
    static const uint32_t group[MOST_MEMBERS] = {0, 1, 2, 3, 4, 5, 6, 7};
    struct tsorvenk_step_args step = {
        .mode = shape->mode, .form = shape->form, .keeps = shape->keeps, .n = n, .d = D, .s = shape->members,
        .spins = task->rows, .spins_len = shape->members * n, .totals = task->totals, .totals_len = shape->totals,
        .fwd = fwd, .fwd_len = n * D, .bwd = bwd, .bwd_len = n * D, .pins = pins, .pins_len = n,
        .couplings = couplings, .couplings_len = n * D, .group = group, .group_len = shape->members,
        .temperature = task->temperature, .cuts = task->cuts, .cuts_len = shape->cuts,
        .reference = task->reference, .seed = task->seed, .flips = task->flips, .flips_len = shape->flips,
        .perms = task->perms, .perms_len = shape->perms, .greys = task->greys, .greys_len = shape->greys,
        .labels = task->labels, .labels_len = shape->labels, .grey_labels = task->grey_labels, .grey_labels_len = shape->grey_labels,
        .counts = task->counts, .counts_len = shape->counts, .sizes = task->sizes, .sizes_len = shape->sizes,
        .member_sites = task->member_sites, .member_sites_len = shape->member_sites,
        .found = task->found, .found_len = shape->found, .grey_found = task->grey_found, .grey_found_len = shape->grey_found,
    };
    accepted(tsorvenk_step_with(&step), "the step");
}
