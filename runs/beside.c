/* Moves and sweeps of every mode and form through the calls with named fields, for `beside-calls`: the same source is built with
 * the header and the archive before a change and with those after it. Fields that only one of them has are not named: pins that
 * are left out pin nothing, and owners that are left out are one. Each line is a case, the shortest time of a call in microseconds,
 * and a sum of what it has written, by which the two are held to each other.
 *
 *     beside [calls]      so many of each case, 300 if left out */
#define _POSIX_C_SOURCE 199309L
#include "tsorvenk.h"
#include <stdio.h>
#include <stdlib.h>
#include <string.h>
#include <time.h>

enum { N = 4096, MOST = 3, S = 16, T = 4, R = 4, MEMBERS = 2, TASKS = T * (R / MEMBERS) };

static const char *const MODES[] = {"houd", "pair", "perm", "gperm", "jorg", "cmr"};
static const char *const FORMS[] = {"SW", "Wolff", "observe", "grow"};

/* minus the logarithms of eight numbers spread over (0, 1] */
static const float CUTS[8] = {2.7726f, 1.6740f, 1.1632f, 0.8267f, 0.5754f, 0.3747f, 0.2076f, 0.0645f};

static uint32_t fwd[N * MOST], bwd[N * MOST], order[S], references[TASKS], seeds[TASKS];
static int32_t couplings[N * MOST];
static float cuts[TASKS * N * MOST], temperatures[T];
static uint8_t flips[TASKS * N], perms[TASKS * N * MEMBERS], greys[TASKS * N], masks[T], member_sites[TASKS * N];
static int8_t before[S * N], spins[S * N];
static uint32_t labels[TASKS * N], grey_labels[TASKS * N], counts[TASKS * (N + 1)], sizes[TASKS * 4];
static uint32_t found[TASKS], grey_found[TASKS], outcomes[3];
static uint64_t state;

static uint32_t draw(uint32_t below) {
    state ^= state >> 12, state ^= state << 25, state ^= state >> 27;
    return (uint32_t)(state * 0x2545f4914f6cdd1du >> 33) % below;
}

/* a torus of d equal sides, couplings of size 1 and spins */
static void make_panel(size_t d) {
    uint32_t side = d == 2 ? 64 : 16;
    state = 0x9e3779b97f4a7c15u;
    for (uint32_t i = 0; i < N; i++) {
        for (uint32_t e = 0, stride = 1; e < d; e++, stride *= side) {
            uint32_t at = i / stride % side, j = i - at * stride + (at + 1) % side * stride;
            fwd[i * d + e] = j, bwd[j * d + e] = i;
        }
    }
    for (size_t k = 0; k < N * d; k++)
        couplings[k] = draw(2) ? 1 : -1;
    for (size_t k = 0; k < S * N; k++)
        before[k] = draw(2) ? 1 : -1;
    for (size_t k = 0; k < S; k++)
        order[k] = (uint32_t)k;
    for (size_t k = 0; k < T; k++)
        temperatures[k] = 0.5f + 0.25f * (float)k;
}

/* the first site of a task that acts; gperm's reference is site 0 */
static uint32_t first_acting(uint8_t mode, size_t task) {
    const int8_t *a = before + task * MEMBERS * N, *b = a + N;
    int same = mode == TSORVENK_GPERM ? a[0] * b[0] : 1;
    uint32_t i = 0;
    while (mode != TSORVENK_CMR && a[i] * b[i] == same)
        i++;
    return i;
}

static void make_choices(uint8_t mode, uint8_t form, size_t d) {
    int one = form != TSORVENK_SW;
    for (size_t k = 0; k < TASKS * N * d; k++)
        cuts[k] = CUTS[draw(8)];
    for (size_t k = 0; k < TASKS * N; k++) {
        int turned = one || draw(2);
        flips[k] = (uint8_t)draw(2);
        greys[k] = (uint8_t)(one ? 1 + draw(3) : draw(4));
        perms[2 * k] = (uint8_t)turned, perms[2 * k + 1] = (uint8_t)!turned;
    }
    for (size_t k = 0; k < TASKS; k++)
        seeds[k] = first_acting(mode, k);
}

/* one move of the first group in a panel of two systems */
static uint8_t move(uint8_t mode, uint8_t form, size_t d) {
    size_t many = form == TSORVENK_SW ? N : 1;
    struct tsorvenk_step_args args = {
        .mode = mode, .form = form, .n = N, .d = d, .s = MEMBERS, .spins = spins, .spins_len = MEMBERS * N,
        .fwd = fwd, .fwd_len = N * d, .bwd = bwd, .bwd_len = N * d, .couplings = couplings, .couplings_len = N * d,
        .group = order, .group_len = MEMBERS, .temperature = 1, .cuts = cuts, .cuts_len = N * d, .seed = seeds[0],
        .flips = flips, .flips_len = N, .perms = perms, .perms_len = many * MEMBERS, .greys = greys, .greys_len = many,
        .labels = labels, .labels_len = N, .grey_labels = grey_labels, .grey_labels_len = N,
        .counts = counts, .counts_len = N + 1, .sizes = sizes, .sizes_len = 4, .member_sites = member_sites,
        .member_sites_len = N, .found = found, .found_len = 1, .grey_found = grey_found, .grey_found_len = 1,
    };
    return tsorvenk_step_with(&args);
}

/* how many outcomes a sweep has is asked of the library */
static uint8_t sweep(uint8_t mode, uint8_t form, size_t d) {
    static size_t told = 3;
    size_t many = form == TSORVENK_SW ? N : 1;
    struct tsorvenk_sweep_args args = {
        .mode = mode, .form = form, .n = N, .d = d, .s = S, .t = T, .r = R, .members = MEMBERS,
        .spins = spins, .spins_len = S * N, .fwd = fwd, .fwd_len = N * d, .bwd = bwd, .bwd_len = N * d,
        .couplings = couplings, .couplings_len = N * d, .order = order, .order_len = S, .masks = masks, .masks_len = T,
        .temperatures = temperatures, .temperatures_len = T, .cuts = cuts, .cuts_len = TASKS * N * d,
        .references = references, .references_len = TASKS, .seeds = seeds, .seeds_len = TASKS,
        .flips = flips, .flips_len = TASKS * N, .perms = perms, .perms_len = TASKS * many * MEMBERS,
        .greys = greys, .greys_len = TASKS * many, .labels = labels, .labels_len = TASKS * N,
        .grey_labels = grey_labels, .grey_labels_len = TASKS * N, .counts = counts, .counts_len = TASKS * (N + 1),
        .sizes = sizes, .sizes_len = TASKS * 4, .member_sites = member_sites, .member_sites_len = TASKS * N,
        .found = found, .found_len = TASKS, .grey_found = grey_found, .grey_found_len = TASKS,
        .outcomes = outcomes, .outcomes_len = told,
    };
    uint8_t code = tsorvenk_sweep_with(&args);
    if (code != 2 || told == 2)
        return code;
    told = 2;
    return sweep(mode, form, d);
}

static double now(void) {
    struct timespec at;
    clock_gettime(CLOCK_MONOTONIC, &at);
    return (double)at.tv_sec * 1e6 + (double)at.tv_nsec / 1e3;
}

static uint32_t sum(uint32_t of, const void *bytes, size_t length) {
    const uint8_t *byte = bytes;
    for (size_t k = 0; k < length; k++)
        of = of * 31 + byte[k];
    return of;
}

static void run(const char *what, uint8_t call(uint8_t, uint8_t, size_t), uint8_t mode, uint8_t form, size_t d, int calls) {
    double best = 0;
    uint32_t written = 0;
    make_choices(mode, form, d);
    for (int k = 0; k < calls; k++) {
        double from, took;
        uint8_t code;
        memcpy(spins, before, sizeof spins);
        from = now();
        code = call(mode, form, d);
        took = now() - from;
        if (code) {
            fprintf(stderr, "%s %s: %d\n", MODES[mode], FORMS[form], code);
            exit(1);
        }
        best = !k || took < best ? took : best;
    }
    written = sum(written, spins, sizeof spins), written = sum(written, labels, sizeof labels);
    written = sum(written, counts, sizeof counts), written = sum(written, member_sites, sizeof member_sites);
    printf("%s-%s-%s-D%u %.2f %u\n", what, MODES[mode], FORMS[form], (unsigned)d, best, (unsigned)written);
}

int main(int argc, char **argv) {
    int calls = argc > 1 ? atoi(argv[1]) : 300;
    for (size_t d = 2; d <= MOST; d++) {
        make_panel(d);
        for (uint8_t mode = 0; mode <= TSORVENK_CMR; mode++) {
            for (uint8_t form = 0; form <= TSORVENK_GROW; form++) {
                run("move", move, mode, form, d, calls);
                run("sweep", sweep, mode, form, d, (calls + 3) / 4);
            }
        }
    }
    return 0;
}
