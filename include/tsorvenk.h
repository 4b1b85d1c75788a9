/* Replica-overlap cluster moves: the library libtsorvenk.a.
 *
 * For every input each function is proved to give one number and one content of every lent buffer: the promises are in
 * crates/tsorvenk/specs, over the definitions in crates/paper/specs. The back end that compiled the archive is trusted.
 *
 * Slices. A buffer is lent as a pointer and its number of elements. The pointer must be valid for that many elements,
 * for writing too where it is not const, and aligned for its type. Buffers must not overlap; only two that are both const
 * may. For a length of 0 give a pointer that is not null and is aligned; nothing is read or written through it. Nothing
 * else is assumed: lengths, numbers and contents may be anything, and what is wrong is refused. No function keeps a
 * pointer, allocates, or has state between calls; calls on different buffers may run at the same time.
 *
 * At the end are the same calls with named fields, where null is a buffer that is left out, and words for each number.
 *
 * A buffer that a mode and form do not take is ignored, at any length and with any content.
 *
 * Refusals, tested in this order. A refusal returns its number, and every buffer keeps its bytes. Where owners are lent two tests
 * come before all of these, even before sizes and numbers that are no mode: 2 if there are not s owner bytes, then 3 if one of
 * them, or the team, is above 1. Then:
 *
 *   1  n not 1 to 4096, d not 1 to 4, s not 1 to 64, group size not 2 to 8, or not 2 in CMR, or not 5 where permutations
 *      are numbers; a mode above 5, a form above 3, a coding above 1, keeps above 1; in a sweep t * r not the number of the
 *      caller's own systems, t or r 0, or members above r; of a vendor's moves a mode that is not perm or gperm
 *  15  straight after 1: houd with a group of more than 2 in SW, Wolff or grow; a sweep is refused whole
 *   2  a buffer's length is not the exact one
 *   3  a spin of a system that the call names, and that is the caller's own, is not +1 or -1; a byte of packed columns, or of a
 *      task's area, has a bit from N upwards; a vendor's spin, before or after, is not +1 or -1
 *   4  a neighbour is n or more, or fwd and bwd are not inverse; after the tables, a pin byte is not 0 or 1
 *   5  a system of the group, of the order or the meter's is s or more, or the other team's; one stands twice
 *   6  a coupling's size is above 1,000,000
 *   7  a temperature is not from 1/1024 to 1,048,576, or not a number
 *   8  a cut is below 0, infinite or not a number
 *   9  a permutation or its number, a flip, grey number, reference site or mask byte is out of its set; in a task's steps a label is
 *      n or more, or a byte of member_sites or blue is not 0 or 1
 *  10  a seed is n or more; or, outside CMR, some site acts and the seed does not
 *  12  of the draws alone: the four words of a source are all 0, m is not 1 to 4096 (for bytes not 1 to 256), the members
 *      are not 2 to 8, or 64 words in a row are taken again
 *  13  of the edge list alone, between 4 and 6: a text that is none, another n or m, a site outside 1 to n, or a line for
 *      which no bond is left
 *  14  last of all: at the hand-over a total of an own system is not its energy; in a call that keeps totals one of them, of a
 *      system that the call names, is above 16,384,000,000 in size, which no energy reaches
 *
 * The draws and the edge list say their order themselves, further down.
 *
 * A test is made only of what the mode and form take.
 *
 * Modes: 0 houd, 1 pair, 2 perm, 3 gperm, 4 Joerg, 5 CMR. Houd moves groups of 2 alone, since with more a flip changes the group's
 * energy, and with 2 it is what pair is; it observes groups of any size.
 * Forms: 0 all clusters (SW), 1 one cluster (Wolff), 2 observe, 3 one cluster by growth (grow).
 *
 * Grow moves what Wolff moves, given the same seed, cuts and choices, and answers and refuses alike. It looks only at what the
 * seed's component reaches, and writes the sites of that component in place of labels, counts and sizes.
 *
 * Coding: 0 rows, 1 numbers: how perms spells permutations, where the mode and form take them. A row is N bytes. A number is
 * one byte, of a group of five: the place, 0 to 119, of its row among the 120 permutations of 0 to 4 in ascending order as
 * words, so that 0 is 0 1 2 3 4 and 119 is 4 3 2 1 0. A call by numbers is the call by their rows, refusals too: a number
 * above 119 is 9, and so is 0, the identity, in Wolff and grow; a group of another size is 1. tsorvenk_row_of and
 * tsorvenk_number_of lead from one to the other. Where no permutations are taken the coding is ignored; it is 0 or 1 there
 * too.
 *
 * Keeps: 0 nothing, 1 totals. A call that keeps totals is lent each system's energy beside the spins and brings these totals
 * current. It takes couplings in every mode. It does not meter: a total changes by what the move changed, so that totals
 * which equal the energies still do, and one that was wrong stays wrong by as much. tsorvenk_hand_over says once whether
 * they are right; tsorvenk_energy, system by system, makes them. To observe moves nothing and keeps nothing, whatever keeps
 * says; it is 0 or 1 there too.
 *
 * Pins: a byte for each site, 1 where the site is pinned. A component with a pinned site is held: it does not move, in any mode
 * and form. It is the whole component that is held; labels, counts, sizes and members are what they are without pins, and the
 * choice of a held component is tested like any other. A pinned site that does not act holds only itself. In CMR blue and grey
 * components are held each for itself, and where a blue one is held so is the grey one around it. A grey one that is held does
 * not move, but the blue ones in it that are not held still flip. Where the seed's component (CMR: its blue one) is held, Wolff
 * and grow answer TSORVENK_HELD: what the form writes is written, and spins and totals stay. In CMR, where only its grey one is
 * held, the blue flip stands, and the answer is 0. SW is never held, even if every component is, and to observe neither: there
 * pins are tested and change nothing. Answers come in this order: a refusal, idle, held, moved. A vendor's moves are checked with
 * pins too. The meter, the hand-over, the labelling, packing and the edge list know no pins, and frames pin nothing.
 *
 * Owners: two teams may search with systems of their own in one buffer of spins, on the same tables, couplings and pins. A byte
 * for each system, 0 or 1, says whose it is, and team, 0 or 1, who calls. tsorvenk_step, tsorvenk_sweep, tsorvenk_energy and
 * tsorvenk_hand_over take both. A call names systems: a step those of its group, a sweep every entry of its order, those that
 * are left over or masked too, the meter its one. It may name its caller's own alone; any other is refused with 5. Rows and totals
 * of the other team are neither read nor written, whatever bytes they hold, and of the caller's own only those of systems that
 * are named are looked at. So what comes back depends on the sizes, the shared tables, the owners, the caller's own rows, totals
 * and arguments, and on nothing else. The hand-over names nobody: it is of all the caller's own systems. Where one team has the
 * whole panel every owner byte is 0, and so is team. Two teams' calls on one buffer are made one after the other, as any others.
 * Packed calls, a task's steps, the check of a vendor's moves, labels, frames, draws and edge lists know no owners; the frame program
 * tests the spins of all its systems.
 */
#ifndef TSORVENK_H
#define TSORVENK_H

#include <stddef.h>
#include <stdint.h>

#ifdef __cplusplus
extern "C" {
#endif

enum { TSORVENK_HOUD, TSORVENK_PAIR, TSORVENK_PERM, TSORVENK_GPERM, TSORVENK_JORG, TSORVENK_CMR };
enum { TSORVENK_SW, TSORVENK_WOLFF, TSORVENK_OBSERVE, TSORVENK_GROW };
enum { TSORVENK_BY_ROWS, TSORVENK_BY_NUMBERS };
enum { TSORVENK_KEEPS_NOTHING, TSORVENK_KEEPS_TOTALS };

/* Numbers that are no refusals: of a step with no acting site, of frames for whose answer there is no room, of a step in Wolff
 * or grow whose seed is held by a pin, and of a vendor's spins that are not accepted. */
enum { TSORVENK_IDLE = 64, TSORVENK_NO_ROOM = 65, TSORVENK_HELD = 66, TSORVENK_NO = 67 };

/* One move or observation of one group, of N = group_len systems.
 *
 *   n, d, s      sites, directions, systems
 *   team         the caller's, 0 or 1
 *   owners       s, each 0 or 1: whose the system is
 *   spins        s * n, system by system: the spin of site i in system k is at k * n + i, +1 or -1; the rows of systems that
 *                are not of the group may hold anything
 *   fwd, bwd     n * d: entry i * d + e is the neighbour of site i in direction e, forward and backward
 *   pins         n, each 0 or 1: 1 pins the site, and its component does not move
 *   couplings    n * d, at the bond's entry                        Joerg, CMR, in every form; totals kept, in every mode
 *   group        N of the team's systems, 2 to 8 (CMR: 2, houd: 2 unless it observes); they differ, and their order matters
 *   temperature                                                    Joerg, CMR, in every form
 *   cuts         n * d, at the bond's entry; a bond is drawn where scale * strength is above its cut
 *                                                                  Joerg, CMR, in every form
 *   reference    a site                                            gperm, in every form
 *   seed         a site                                            Wolff, grow
 *   flips        n, each 0 or 1                                    SW of houd, pair, Joerg, CMR
 *   perms        SW: n rows of N, Wolff and grow: one row of N that is not the identity; each row a permutation of 0 to
 *                N - 1: replica k gets the old spin of replica p(k)
 *                by numbers SW: n, each 0 to 119; Wolff and grow: one, 1 to 119
 *                                                                  SW, Wolff, grow of perm, gperm
 *   greys        SW: n, each 0 to 3; Wolff and grow: one, 1 to 3; bit 0 flips the first replica, bit 1 the second
 *                                                                  SW, Wolff, grow of CMR
 *
 * In SW a component's choice is the entry, of perms the row or the number that stands for it, at the component's number (CMR:
 * flips at the blue number, greys at the grey one). Entries that no component uses are tested too.
 * Written, unless refused:
 *
 *   labels       n: the number of each site's component (CMR: of its blue one). Components are numbered 0, 1, 2 .. in the order
 *                of their smallest sites; a site that does not act is a component of its own and is numbered too
 *                                                                  SW, Wolff, observe
 *   grey_labels  n: the same of grey components                    SW and Wolff of CMR
 *   counts       n + 1: count k is the number of acting components of size k, count 0 is 0 (CMR: blue, all of them)
 *                                                                  SW, Wolff, observe
 *   sizes        4: the largest sizes of what is counted, in falling order, filled with 0
 *                                                                  SW, Wolff, observe
 *   member_sites n: 1 at the sites of the seed's component (CMR: of its grey one), else 0; idle: all 0
 *                                                                  grow
 *   found        1: how many components there are (CMR: blue ones), one more than the largest label. Counts are of acting
 *                components only: found is their sum and one for each site that does not act
 *                                                                  SW, Wolff, observe
 *   grey_found   1: how many grey ones there are                   SW and Wolff of CMR
 *   spins        the group's rows after the move; idle, held and observe leave them as they are
 *   totals       s, one for each system: that of a system of the group changes by its energy after the move less its
 *                energy before; those of others stay, whatever they are
 *                                                                  SW, Wolff, grow where keeps is 1
 *
 * Returns TSORVENK_IDLE if no site acts (never in CMR), TSORVENK_HELD if some does and the form is Wolff or grow and the seed's
 * component (CMR: its blue one) has a pinned site, 0 in all other cases that are not refused, else the refusal 1 to 10, 14
 * or 15. */
uint8_t tsorvenk_step(uint8_t mode, uint8_t form, uint8_t coding, uint8_t keeps, size_t n, size_t d, size_t s,
    uint8_t team, const uint8_t *owners, size_t owners_len,
    int8_t *spins, size_t spins_len, int64_t *totals, size_t totals_len,
    const uint32_t *fwd, size_t fwd_len, const uint32_t *bwd, size_t bwd_len, const uint8_t *pins, size_t pins_len,
    const int32_t *couplings, size_t couplings_len, const uint32_t *group, size_t group_len,
    float temperature, const float *cuts, size_t cuts_len, size_t reference, size_t seed,
    const uint8_t *flips, size_t flips_len, const uint8_t *perms, size_t perms_len, const uint8_t *greys, size_t greys_len,
    uint32_t *labels, size_t labels_len, uint32_t *grey_labels, size_t grey_labels_len,
    uint32_t *counts, size_t counts_len, uint32_t *sizes, size_t sizes_len,
    uint8_t *member_sites, size_t member_sites_len,
    uint32_t *found, size_t found_len, uint32_t *grey_found, size_t grey_found_len);

/* A sweep over t temperatures of r replicas, in groups of N = members systems. It is over all systems of the team, t * r of them,
 * with t and r at least 1; a team that has none has no sweep, and is refused with 1.
 *
 * Temperature j owns the order's entries from j * r on; its groups are runs of N, and what is left over does not move. Task
 * number j * (r / N) + g, rounded down, is the group g of temperature j. There are K = t * (r / N) tasks, those of masked
 * temperatures too. Each task is the step that it would be alone; its areas in the buffers are at its number:
 *
 *   team, owners, spins, fwd, bwd, pins, couplings                 as in a step; the rows of the order's systems are spins,
 *                 those that are left over or masked too
 *   order         t * r: the team's systems, each once
 *   masks         t, each 0 or 1: 1 masks its temperature, whose tasks' areas are neither read nor written
 *   temperatures  t                                                Joerg, CMR, in every form
 *   cuts          K * n * d                                        Joerg, CMR, in every form
 *   references    K                                                gperm, in every form
 *   seeds         K                                                Wolff, grow
 *   flips         K * n                                            SW of houd, pair, Joerg, CMR
 *   perms         SW: K * n * N, Wolff and grow: K * N             SW, Wolff, grow of perm, gperm
 *                 by numbers SW: K * n, Wolff and grow: K
 *   greys         SW: K * n, Wolff and grow: K                     SW, Wolff, grow of CMR
 *
 * Written, unless refused:
 *
 *   labels        K * n                                            SW, Wolff, observe
 *   grey_labels   K * n                                            SW and Wolff of CMR
 *   counts        K * (n + 1)                                      SW, Wolff, observe
 *   sizes         K * 4                                            SW, Wolff, observe
 *   member_sites  K * n                                            grow
 *   found         K                                                SW, Wolff, observe
 *   grey_found    K                                                SW and Wolff of CMR
 *   outcomes      3: how many unmasked tasks were idle, how many moved, which are all others, even if every choice was 0, and
 *                 how many were held                               the last is 0 in SW and observe
 *   spins         the rows of the groups of unmasked tasks
 *   totals        s, as in a step                                  SW, Wolff, grow where keeps is 1
 *
 * Tests 1, 15, 2 to 7 and the mask bytes (9) are made over the whole sweep, masked temperatures too, then 8, 9 and 10 of each
 * unmasked task in ascending order, and 14 after all of these; all before anything is written.
 *
 * Returns 0 if swept, else the refusal 1 to 10, 14 or 15. */
uint8_t tsorvenk_sweep(uint8_t mode, uint8_t form, uint8_t coding, uint8_t keeps, size_t n, size_t d, size_t s,
    uint8_t team, size_t t, size_t r, size_t members, const uint8_t *owners, size_t owners_len,
    int8_t *spins, size_t spins_len, int64_t *totals, size_t totals_len,
    const uint32_t *fwd, size_t fwd_len, const uint32_t *bwd, size_t bwd_len, const uint8_t *pins, size_t pins_len,
    const int32_t *couplings, size_t couplings_len, const uint32_t *order, size_t order_len,
    const uint8_t *masks, size_t masks_len, const float *temperatures, size_t temperatures_len,
    const float *cuts, size_t cuts_len, const uint32_t *references, size_t references_len,
    const uint32_t *seeds, size_t seeds_len,
    const uint8_t *flips, size_t flips_len, const uint8_t *perms, size_t perms_len, const uint8_t *greys, size_t greys_len,
    uint32_t *labels, size_t labels_len, uint32_t *grey_labels, size_t grey_labels_len,
    uint32_t *counts, size_t counts_len, uint32_t *sizes, size_t sizes_len,
    uint8_t *member_sites, size_t member_sites_len,
    uint32_t *found, size_t found_len, uint32_t *grey_found, size_t grey_found_len,
    uint32_t *outcomes, size_t outcomes_len);

/* A sweep's tasks in any order, on several threads or machines. Each task is three steps, each lent what is its task's alone:
 *
 *   tsorvenk_test_sweep    once: whether the sweep is refused. A refused sweep takes no step
 *   tsorvenk_task_label    tests, labels and counts; no spin is written
 *   tsorvenk_task_choose   from the labels and the choices, the column of each site after the move; no row is written
 *   tsorvenk_task_write    the rows and totals from the columns; nothing else changes spins
 *
 * To run a sweep so: test it; copy each unmasked task's N rows, and its totals where they are kept, out of the panel in the group's
 * order, which is that of its run of the sweep's order; make the three steps of each task, in this order, on its rows and on its
 * areas of the sweep's buffers, with its entries of cuts, references, seeds and choices; and copy rows and totals back. Tasks may be
 * taken in any order, their steps mixed, or run at the same time: the steps of two tasks share nothing that is written. Spins,
 * totals and outputs are then those of tsorvenk_sweep, and its outcomes are counted from what tsorvenk_task_label answered:
 * TSORVENK_IDLE, 0 and TSORVENK_HELD. Tasks of a masked temperature take no step, and systems that are left over are no task's.
 * No step of an accepted sweep is refused. Idle and held tasks may go through all three steps, which leave their spins, or stop
 * after the first. The steps of another team's sweep on the same panel may be mixed in: each team tests its own sweep, at any time,
 * and has its own areas.
 *
 * The steps take permutations as rows: a sweep by numbers is first spelt out by tsorvenk_row_of.
 *
 * Whether a sweep is refused. Every argument is that of tsorvenk_sweep by rows, and nothing is written: of labels, grey_labels,
 * counts, sizes, member_sites, found and grey_found the lengths alone are looked at.
 *
 * Returns 0, or the refusal that tsorvenk_sweep would give, where its outcomes have length 3. */
uint8_t tsorvenk_test_sweep(uint8_t mode, uint8_t form, uint8_t keeps, size_t n, size_t d, size_t s,
    uint8_t team, size_t t, size_t r, size_t members, const uint8_t *owners, size_t owners_len,
    const int8_t *spins, size_t spins_len, const int64_t *totals, size_t totals_len,
    const uint32_t *fwd, size_t fwd_len, const uint32_t *bwd, size_t bwd_len, const uint8_t *pins, size_t pins_len,
    const int32_t *couplings, size_t couplings_len, const uint32_t *order, size_t order_len,
    const uint8_t *masks, size_t masks_len, const float *temperatures, size_t temperatures_len,
    const float *cuts, size_t cuts_len, const uint32_t *references, size_t references_len,
    const uint32_t *seeds, size_t seeds_len,
    const uint8_t *flips, size_t flips_len, const uint8_t *perms, size_t perms_len, const uint8_t *greys, size_t greys_len,
    const uint32_t *labels, size_t labels_len, const uint32_t *grey_labels, size_t grey_labels_len,
    const uint32_t *counts, size_t counts_len, const uint32_t *sizes, size_t sizes_len,
    const uint8_t *member_sites, size_t member_sites_len,
    const uint32_t *found, size_t found_len, const uint32_t *grey_found, size_t grey_found_len);

/* The first step of a task of N = members systems: what tsorvenk_step does beside the spins, with s = N, one owner, no totals and
 * the group 0, 1 .. N - 1.
 *
 *   rows         N * n: the spin of member k at site i is at k * n + i, +1 or -1; the members stand in the group's order
 *   fwd, bwd, pins, couplings, temperature, cuts, reference, seed, flips, perms, greys
 *                                                                  as in a step, perms by rows
 *
 * Written, unless refused:
 *
 *   labels, grey_labels, counts, sizes, member_sites, found, grey_found
 *                                                                  as by a step
 *   blue         n: 1 at the sites that blue bonds join to the seed, the seed too, else 0
 *                                                                  grow of CMR
 *
 * Returns TSORVENK_IDLE, TSORVENK_HELD or 0, which is what the move will answer, else the refusal 1, 15, 2, 3, 4 (the tables, then
 * the pins), 6, 7, 8, 9 or 10, in this order. */
uint8_t tsorvenk_task_label(uint8_t mode, uint8_t form, size_t n, size_t d, size_t members,
    const int8_t *rows, size_t rows_len,
    const uint32_t *fwd, size_t fwd_len, const uint32_t *bwd, size_t bwd_len, const uint8_t *pins, size_t pins_len,
    const int32_t *couplings, size_t couplings_len,
    float temperature, const float *cuts, size_t cuts_len, size_t reference, size_t seed,
    const uint8_t *flips, size_t flips_len, const uint8_t *perms, size_t perms_len, const uint8_t *greys, size_t greys_len,
    uint32_t *labels, size_t labels_len, uint32_t *grey_labels, size_t grey_labels_len,
    uint32_t *counts, size_t counts_len, uint32_t *sizes, size_t sizes_len,
    uint8_t *member_sites, size_t member_sites_len,
    uint32_t *found, size_t found_len, uint32_t *grey_found, size_t grey_found_len, uint8_t *blue, size_t blue_len);

/* The second step: the choice of each component, as the column of each of its sites after the move. Tables, couplings and cuts are
 * not taken: the labels say what hangs together. Whether they are those of the rows is not asked.
 *
 *   rows         N * n, as lent to the first step
 *   pins, reference, seed, flips, perms, greys                     as in the first step; of the seed, that it is a site
 *   labels       n, each below n                                   SW, Wolff
 *   grey_labels  n, each below n                                   SW and Wolff of CMR
 *   member_sites n, each 0 or 1                                    grow
 *   blue         n, each 0 or 1                                    grow of CMR
 *
 * Written, unless refused:
 *
 *   area         n: bit k of the byte of site i is set where member k is +1 there after the move, and bits from N upwards are 0;
 *                grow: at the member sites alone, and other bytes stay. To observe gives the columns as they are
 *
 * Returns 0, or the refusal 1, 15, 2, 3, 4 (the pins), 9 (the choices and the reference, then the labels and bytes of the first
 * step) or 10 (a seed is n or more), in this order. */
uint8_t tsorvenk_task_choose(uint8_t mode, uint8_t form, size_t n, size_t d, size_t members,
    const int8_t *rows, size_t rows_len, const uint8_t *pins, size_t pins_len, size_t reference, size_t seed,
    const uint8_t *flips, size_t flips_len, const uint8_t *perms, size_t perms_len, const uint8_t *greys, size_t greys_len,
    const uint32_t *labels, size_t labels_len, const uint32_t *grey_labels, size_t grey_labels_len,
    const uint8_t *member_sites, size_t member_sites_len, const uint8_t *blue, size_t blue_len,
    uint8_t *area, size_t area_len);

/* The third step: the rows become what the columns show, and the totals are brought current.
 *
 *   fwd, bwd, couplings                                            as in a step; taken where totals are kept, and there alone
 *   member_sites n, each 0 or 1                                    grow
 *   area         n, each without a bit from N upwards; in grow this is asked at the member sites alone
 *
 * Written, unless refused:
 *
 *   rows         N * n, as lent to the first step: the spin of member k at site i is +1 where bit k of the site's byte is set, and
 *                else -1; grow: at the member sites alone
 *   totals       N, in the members' order: each changes by its row's energy after less its energy before
 *                                                                  SW, Wolff, grow where keeps is 1
 *
 * Returns 0, or the refusal 1, 15, 2, 3 (the rows, then the area), 4 (the tables), 6, 9 (a byte of member_sites) or 14, in this
 * order; 4, 6 and 14 where totals are kept alone. */
uint8_t tsorvenk_task_write(uint8_t mode, uint8_t form, uint8_t keeps, size_t n, size_t d, size_t members,
    int8_t *rows, size_t rows_len, int64_t *totals, size_t totals_len,
    const uint32_t *fwd, size_t fwd_len, const uint32_t *bwd, size_t bwd_len, const int32_t *couplings, size_t couplings_len,
    const uint8_t *member_sites, size_t member_sites_len, const uint8_t *area, size_t area_len);

/* One byte for a site's whole group: N = members systems, of which none has a number.
 *
 *   columns      n: bit k of the byte of site i is set where member k is +1 there. Bits from N upwards are 0
 *   rows         N * n: the spin of member k at site i is at k * n + i, +1 or -1
 *
 * Packing and unpacking undo each other. The bytes are the spins themselves, in every mode: gperm's reference site is never
 * worked into them.
 *
 *   tsorvenk_pack      writes columns, from rows
 *   tsorvenk_unpack    writes rows, from columns
 *
 * Each returns 0, or a refusal in this order: 1 (n not 1 to 4096, members not 2 to 8), 2 (rows not N * n, columns not n), 3 (a
 * spin is not +1 or -1; a byte has a bit from N upwards). With 8 members no bit is too high. */
uint8_t tsorvenk_pack(size_t n, size_t members, const int8_t *rows, size_t rows_len, uint8_t *columns, size_t columns_len);
uint8_t tsorvenk_unpack(size_t n, size_t members, const uint8_t *columns, size_t columns_len, int8_t *rows, size_t rows_len);

/* A step on such columns, of every mode and form: what tsorvenk_step does with the unpacked rows, with s = N, one owner and the
 * group 0, 1 .. N - 1. It answers the same, writes the same and refuses the same, and its columns are those rows packed.
 *
 *   columns      n, as above: read, and written after the move. Idle, held and observe leave them as they are
 *   totals       N, in the members' order                          SW, Wolff, grow where keeps is 1
 *   all others                                                     as in a step
 *
 * There is no s, no group, and no row of any other system: what a move's group is, its caller packs.
 *
 * Returns TSORVENK_IDLE, TSORVENK_HELD or 0 as a step does, else the refusal 1 (n, d, members and the codes), 15, 2, 3 (a bit
 * from N upwards), 4 (the tables, then the pins), 6, 7, 8, 9, 10 or 14, in this order; 5 does not occur. */
uint8_t tsorvenk_packed_step(uint8_t mode, uint8_t form, uint8_t coding, uint8_t keeps, size_t n, size_t d, size_t members,
    uint8_t *columns, size_t columns_len, int64_t *totals, size_t totals_len,
    const uint32_t *fwd, size_t fwd_len, const uint32_t *bwd, size_t bwd_len, const uint8_t *pins, size_t pins_len,
    const int32_t *couplings, size_t couplings_len,
    float temperature, const float *cuts, size_t cuts_len, size_t reference, size_t seed,
    const uint8_t *flips, size_t flips_len, const uint8_t *perms, size_t perms_len, const uint8_t *greys, size_t greys_len,
    uint32_t *labels, size_t labels_len, uint32_t *grey_labels, size_t grey_labels_len,
    uint32_t *counts, size_t counts_len, uint32_t *sizes, size_t sizes_len,
    uint8_t *member_sites, size_t member_sites_len,
    uint32_t *found, size_t found_len, uint32_t *grey_found, size_t grey_found_len);

/* Whether a vendor's spins of one group, of N = members systems, before and after a move are those of a move in perm or gperm. The
 * systems have no numbers: their rows stand in the group's order.
 *
 *   mode         perm or gperm; any other is refused with 1
 *   before       N * n: the spin of member k at site i is at k * n + i, +1 or -1
 *   after        N * n, likewise
 *   fwd, bwd, pins                                                 as in a step
 *   reference    a site                                            gperm
 *
 * Components are those of before, numbered as by an observation of it, where a site that does not act is one of its own. A
 * component that acts is what a move makes of it if one permutation p of 0 to N - 1 serves at all its sites: replica k gets the
 * old spin of replica p(k); in gperm, with the old spins P of the reference site, P(k) * P(p(k)) times that. Each component has
 * its own p. A component is at fault if it acts and there is no such p, if it does not act and its site differs, or if it is
 * held, by a pinned site, and differs, even where there is such a p. gperm's reference site never acts. The pair is accepted
 * where no component is at fault: so is whatever SW, Wolff and grow write in that mode with these pins.
 *
 * Written if accepted, and only then:
 *
 *   rows         n * N: in row c, from c * N on, of the component of number c that acts the smallest such p, as a word: where
 *                rows of spins are equal on the component several serve. In the rows of all other components, and past the
 *                last, 0 to N - 1. As perms of SW they make after of before
 *
 * Written if a component is at fault, and only then:
 *
 *   fault        1: the smallest number of such a component
 *
 * Returns 0 if the pair is accepted, TSORVENK_NO if not, else the refusal 1 (n, d, members and the mode), 2, 3 (a spin of either
 * buffer), 4 (the tables, then the pins) or 9 (gperm's reference), in this order. */
uint8_t tsorvenk_check_vendor(uint8_t mode, size_t n, size_t d, size_t members, size_t reference,
    const uint32_t *fwd, size_t fwd_len, const uint32_t *bwd, size_t bwd_len, const uint8_t *pins, size_t pins_len,
    const int8_t *before, size_t before_len, const int8_t *after, size_t after_len,
    uint8_t *rows, size_t rows_len, uint32_t *fault, size_t fault_len);

/* The energy of one system: minus the sum over all n * d bonds of the coupling times both spins.
 *
 *   team, owners s, spins s * n, fwd and bwd n * d, couplings n * d
 *                                                                as in a step, all of them taken
 *   system       below s, and the team's
 *   energy       1: written unless refused
 *
 * Returns 0, or the refusal 1 to 6. */
uint8_t tsorvenk_energy(size_t n, size_t d, size_t s, uint8_t team, const uint8_t *owners, size_t owners_len,
    const int8_t *spins, size_t spins_len, const uint32_t *fwd, size_t fwd_len, const uint32_t *bwd, size_t bwd_len,
    const int32_t *couplings, size_t couplings_len, size_t system, int64_t *energy, size_t energy_len);

/* Whether the total of each of the team's systems is its energy: asked once by each team, before its first call that keeps them. A
 * team that has no system is told 0.
 *
 *   team, owners s, spins s * n, fwd and bwd n * d, couplings n * d
 *                                                                as in a step, all of them taken
 *   totals       s, one for each system, those of the other team whatever they are
 *
 * Nothing is written. Returns 0, or the refusal 1, 2, 3, 4, 6 or 14; 3 and 14 are of all the team's systems. */
uint8_t tsorvenk_hand_over(size_t n, size_t d, size_t s, uint8_t team, const uint8_t *owners, size_t owners_len,
    const int8_t *spins, size_t spins_len, const int64_t *totals, size_t totals_len,
    const uint32_t *fwd, size_t fwd_len, const uint32_t *bwd, size_t bwd_len,
    const int32_t *couplings, size_t couplings_len);

/* The row of a permutation of five, of its number 0 to 119: see the coding above.
 *
 *   row          5: written unless refused
 *
 * Returns 0, or the refusal 2 (row_len is not 5) or 9 (a number above 119), in this order. */
uint8_t tsorvenk_row_of(uint8_t number, uint8_t *row, size_t row_len);

/* The number of a row: the one of which tsorvenk_row_of writes it.
 *
 *   row          5
 *   number       1: written unless refused
 *
 * Returns 0, or the refusal 2 (row_len is not 5, or number_len not 1) or 9 (no permutation of 0 to 4), in this order. */
uint8_t tsorvenk_number_of(const uint8_t *row, size_t row_len, uint8_t *number, size_t number_len);

/* The components of the bonds whose byte in holds is 1.
 *
 *   fwd          n * d, each below n; a backward table is not needed
 *   holds        n * d, at the bond's entry, each 0 or 1
 *   counted      n, each 0 or 1: a component counts where the byte at its smallest site is 1
 *   labels n, counts n + 1, sizes 4, found 1                       written as by a step, unless refused; found is of all
 *                components, those that do not count too
 *
 * Returns 0, or the refusal 1 (n or d out of range), 2, 4 (a neighbour is n or more) or 9 (a byte of holds or counted). */
uint8_t tsorvenk_label(size_t n, size_t d, const uint32_t *fwd, size_t fwd_len, const uint8_t *holds, size_t holds_len,
    const uint8_t *counted, size_t counted_len, uint32_t *labels, size_t labels_len, uint32_t *counts, size_t counts_len,
    uint32_t *sizes, size_t sizes_len, uint32_t *found, size_t found_len);

/* Bytes that are room for the answer to every text of frames. */
enum { TSORVENK_FRAMES_ROOM = 6157 };

/* The frame program of docs/FRAMES.md on a text in memory.
 *
 *   text         of any length
 *   out          the answer's frames are written to its front, and the rest of it is kept. TSORVENK_FRAMES_ROOM bytes are
 *                enough
 *   written      1: the number of bytes of the answer
 *
 * A text that the program refuses, 11 among its numbers, is answered by the line that says so: that is an answer too.
 *
 * Returns 0 if the answer is written, 2 if written_len is not 1, TSORVENK_NO_ROOM if out is too short for the answer; in
 * the last two cases nothing is written. */
uint8_t tsorvenk_frames(const uint8_t *text, size_t text_len, uint8_t *out, size_t out_len, size_t *written, size_t written_len);

/* Draws that can be repeated: the choices of a day, from a seed of four words.
 *
 * The generator is xoshiro256** of Blackman and Vigna. Equal sources give equal draws, everywhere. Rust's rand has another
 * stream, and cuts are not drawn here.
 *
 *   source       4: at first the seed, any words that are not all 0, and then what the last draw left. It is read and,
 *                unless refused, written: stepped by one word for each word that the call drew
 *
 * Every draw is made of words, the first one first:
 *
 *   a coin       the top bit of a word
 *   a number below m, m from 1 to 4096
 *                the high 32 bits of a word, taken again from the next word while they are not below m * (2^32 / m), the
 *                quotient rounded down; then the remainder by m. 64 words in a row taken again are refused
 *   a permutation of 0 to N - 1, N = members from 2 to 8
 *                0 to N - 1 in order; then, from the last place k down to place 1, place k is exchanged with a place that
 *                is a number below k + 1
 *
 * Each function writes, unless refused:
 *
 *   tsorvenk_word                word, 1: the next word
 *   tsorvenk_coin                coin, 1: 0 or 1
 *   tsorvenk_below               number, 1: a number below m
 *   tsorvenk_permutation         row, members: a permutation
 *   tsorvenk_fill_flips          flips, any length: a coin each
 *   tsorvenk_fill_below          numbers, any length: a number below m each, as seeds and references are
 *   tsorvenk_fill_bytes_below    bytes, any length: a number below m each, m from 1 to 256; grey numbers of SW with m = 4
 *   tsorvenk_fill_permutations   rows, a whole number of rows of members bytes: a permutation each
 *   tsorvenk_wolff_permutation   rows, as above: a permutation each that is not the identity. A permutation that is is
 *                                drawn again as a whole, and the 64th in a row is refused
 *   tsorvenk_wolff_grey          greys, any length: 1 to 3 each, 1 more than a number below 3
 *   tsorvenk_fill_numbers        perms, any length: a number below 120 each, of a permutation of five
 *   tsorvenk_wolff_numbers       perms, any length: 1 to 119 each, 1 more than a number below 119
 *
 * The last two are for calls by numbers: a number is drawn by one word, where a row of five is drawn by four, so that from the
 * same source a fill of numbers is not that of rows.
 * A fill leaves what its draws one by one would leave, from the first entry to the last, and the same source.
 *
 * Each returns 0 or a refusal, tested in this order: 2 if source_len is not 4; 12 if the source's words are all 0, m or
 * members is out of range; 2 if the buffer to write has not the length named above; and last 12 if 64 words, or 64
 * identities, in a row are taken again. Refused, the source and every buffer are as they were. */
uint8_t tsorvenk_word(uint64_t *source, size_t source_len, uint64_t *word, size_t word_len);
uint8_t tsorvenk_coin(uint64_t *source, size_t source_len, uint8_t *coin, size_t coin_len);
uint8_t tsorvenk_below(uint32_t m, uint64_t *source, size_t source_len, uint32_t *number, size_t number_len);
uint8_t tsorvenk_permutation(size_t members, uint64_t *source, size_t source_len, uint8_t *row, size_t row_len);
uint8_t tsorvenk_fill_flips(uint64_t *source, size_t source_len, uint8_t *flips, size_t flips_len);
uint8_t tsorvenk_fill_below(uint32_t m, uint64_t *source, size_t source_len, uint32_t *numbers, size_t numbers_len);
uint8_t tsorvenk_fill_bytes_below(uint32_t m, uint64_t *source, size_t source_len, uint8_t *bytes, size_t bytes_len);
uint8_t tsorvenk_fill_permutations(size_t members, uint64_t *source, size_t source_len, uint8_t *rows, size_t rows_len);
uint8_t tsorvenk_wolff_permutation(size_t members, uint64_t *source, size_t source_len, uint8_t *rows, size_t rows_len);
uint8_t tsorvenk_wolff_grey(uint64_t *source, size_t source_len, uint8_t *greys, size_t greys_len);
uint8_t tsorvenk_fill_numbers(uint64_t *source, size_t source_len, uint8_t *perms, size_t perms_len);
uint8_t tsorvenk_wolff_numbers(uint64_t *source, size_t source_len, uint8_t *perms, size_t perms_len);

/* The couplings from an edge list, and back. docs/EDGES.md has the form, an example and what becomes of double bonds.
 *
 * The list is a text: a first line "n m", then m lines "i j J", sites counted from 1. Numbers are decimal without leading
 * zeros, a minus only before a J that is not 0; one space between, a line feed after every line, and nothing else.
 *
 *   n, d, fwd, bwd                                                 as in a step
 *   text         of any length
 *   couplings    n * d: written unless refused. A line belongs to the lowest bond, by its entry i * d + e, that joins its
 *                two sites in either sense and that no earlier line has; J may be 0. Bonds without a line get 0
 *
 * Returns 0, or the refusal 1 (n or d), 2, 4, 13, 6: 6 is given only where nothing in the text gives 13. */
uint8_t tsorvenk_read_edges(size_t n, size_t d, const uint32_t *fwd, size_t fwd_len, const uint32_t *bwd, size_t bwd_len,
    const uint8_t *text, size_t text_len, int32_t *couplings, size_t couplings_len);

/* The couplings that are not 0 as such a list, in the order of their entries, each from its site to its forward neighbour.
 *
 *   n, d, fwd, bwd, couplings                                      as in a step, all of them taken
 *   text         the list is written to its front, and the rest of it is kept. TSORVENK_EDGES_ROOM bytes are enough
 *   written      1: the number of bytes of the list
 *
 * Returns 0, or the refusal 1 (n or d), 2, 4, 6, and last 2 if text is shorter than the list. */
uint8_t tsorvenk_write_edges(size_t n, size_t d, const uint32_t *fwd, size_t fwd_len, const uint32_t *bwd, size_t bwd_len,
    const int32_t *couplings, size_t couplings_len, uint8_t *text, size_t text_len, size_t *written, size_t written_len);

/* Bytes that are room for every list: 16,384 lines and the first one. */
enum { TSORVENK_EDGES_ROOM = 302451 };

/* Calls with named fields.
 *
 * Each function NAME_with below is the function NAME above, with the inputs of the same names and lengths as fields of a
 * struct; all draws share one. Name what the mode and form take and leave out the rest, which is then 0:
 *
 *     struct tsorvenk_step_args args = {
 *         .mode = TSORVENK_PAIR, .form = TSORVENK_WOLFF, .n = n, .d = d, .s = s,
 *         .spins = spins, .spins_len = s * n, .fwd = fwd, .fwd_len = n * d, .bwd = bwd, .bwd_len = n * d,
 *         .group = group, .group_len = 2, .seed = seed,
 *         .labels = labels, .labels_len = n, .counts = counts, .counts_len = n + 1, .sizes = sizes, .sizes_len = 4,
 *         .found = &found, .found_len = 1,
 *     };
 *     uint8_t number = tsorvenk_step_with(&args);
 *
 * A buffer whose pointer is null has length 0, whatever its _len is: where the mode and form do not take it it is ignored,
 * and where they do it is refused with 2, but in a fill, which may have no entry, and as a text to read. Pins that are null
 * pin nothing, whatever pins_len is: a table of 4096 zeros is lent in their place, n long. Owners that are null are one owner
 * everywhere, 0, whatever owners_len is: the same table is lent, s long, so that more than 4096 systems are refused with 2. A
 * struct that is initialised by name, or to 0 and then field by field, needs no change where a field is added. The functions
 * are inline: the struct is no part of what is linked. */
struct tsorvenk_step_args {
    uint8_t mode, form, coding, keeps, team;
    size_t n, d, s;
    const uint8_t *owners;
    size_t owners_len;
    int8_t *spins;
    size_t spins_len;
    int64_t *totals;
    size_t totals_len;
    const uint32_t *fwd;
    size_t fwd_len;
    const uint32_t *bwd;
    size_t bwd_len;
    const uint8_t *pins;
    size_t pins_len;
    const int32_t *couplings;
    size_t couplings_len;
    const uint32_t *group;
    size_t group_len;
    float temperature;
    const float *cuts;
    size_t cuts_len;
    size_t reference, seed;
    const uint8_t *flips;
    size_t flips_len;
    const uint8_t *perms;
    size_t perms_len;
    const uint8_t *greys;
    size_t greys_len;
    uint32_t *labels;
    size_t labels_len;
    uint32_t *grey_labels;
    size_t grey_labels_len;
    uint32_t *counts;
    size_t counts_len;
    uint32_t *sizes;
    size_t sizes_len;
    uint8_t *member_sites;
    size_t member_sites_len;
    uint32_t *found;
    size_t found_len;
    uint32_t *grey_found;
    size_t grey_found_len;
};

struct tsorvenk_sweep_args {
    uint8_t mode, form, coding, keeps, team;
    size_t n, d, s, t, r, members;
    const uint8_t *owners;
    size_t owners_len;
    int8_t *spins;
    size_t spins_len;
    int64_t *totals;
    size_t totals_len;
    const uint32_t *fwd;
    size_t fwd_len;
    const uint32_t *bwd;
    size_t bwd_len;
    const uint8_t *pins;
    size_t pins_len;
    const int32_t *couplings;
    size_t couplings_len;
    const uint32_t *order;
    size_t order_len;
    const uint8_t *masks;
    size_t masks_len;
    const float *temperatures;
    size_t temperatures_len;
    const float *cuts;
    size_t cuts_len;
    const uint32_t *references;
    size_t references_len;
    const uint32_t *seeds;
    size_t seeds_len;
    const uint8_t *flips;
    size_t flips_len;
    const uint8_t *perms;
    size_t perms_len;
    const uint8_t *greys;
    size_t greys_len;
    uint32_t *labels;
    size_t labels_len;
    uint32_t *grey_labels;
    size_t grey_labels_len;
    uint32_t *counts;
    size_t counts_len;
    uint32_t *sizes;
    size_t sizes_len;
    uint8_t *member_sites;
    size_t member_sites_len;
    uint32_t *found;
    size_t found_len;
    uint32_t *grey_found;
    size_t grey_found_len;
    uint32_t *outcomes;
    size_t outcomes_len;
};

struct tsorvenk_test_sweep_args {
    uint8_t mode, form, keeps, team;
    size_t n, d, s, t, r, members;
    const uint8_t *owners;
    size_t owners_len;
    const int8_t *spins;
    size_t spins_len;
    const int64_t *totals;
    size_t totals_len;
    const uint32_t *fwd;
    size_t fwd_len;
    const uint32_t *bwd;
    size_t bwd_len;
    const uint8_t *pins;
    size_t pins_len;
    const int32_t *couplings;
    size_t couplings_len;
    const uint32_t *order;
    size_t order_len;
    const uint8_t *masks;
    size_t masks_len;
    const float *temperatures;
    size_t temperatures_len;
    const float *cuts;
    size_t cuts_len;
    const uint32_t *references;
    size_t references_len;
    const uint32_t *seeds;
    size_t seeds_len;
    const uint8_t *flips;
    size_t flips_len;
    const uint8_t *perms;
    size_t perms_len;
    const uint8_t *greys;
    size_t greys_len;
    const uint32_t *labels;
    size_t labels_len;
    const uint32_t *grey_labels;
    size_t grey_labels_len;
    const uint32_t *counts;
    size_t counts_len;
    const uint32_t *sizes;
    size_t sizes_len;
    const uint8_t *member_sites;
    size_t member_sites_len;
    const uint32_t *found;
    size_t found_len;
    const uint32_t *grey_found;
    size_t grey_found_len;
};

struct tsorvenk_task_label_args {
    uint8_t mode, form;
    size_t n, d, members;
    const int8_t *rows;
    size_t rows_len;
    const uint32_t *fwd;
    size_t fwd_len;
    const uint32_t *bwd;
    size_t bwd_len;
    const uint8_t *pins;
    size_t pins_len;
    const int32_t *couplings;
    size_t couplings_len;
    float temperature;
    const float *cuts;
    size_t cuts_len;
    size_t reference, seed;
    const uint8_t *flips;
    size_t flips_len;
    const uint8_t *perms;
    size_t perms_len;
    const uint8_t *greys;
    size_t greys_len;
    uint32_t *labels;
    size_t labels_len;
    uint32_t *grey_labels;
    size_t grey_labels_len;
    uint32_t *counts;
    size_t counts_len;
    uint32_t *sizes;
    size_t sizes_len;
    uint8_t *member_sites;
    size_t member_sites_len;
    uint32_t *found;
    size_t found_len;
    uint32_t *grey_found;
    size_t grey_found_len;
    uint8_t *blue;
    size_t blue_len;
};

struct tsorvenk_task_choose_args {
    uint8_t mode, form;
    size_t n, d, members;
    const int8_t *rows;
    size_t rows_len;
    const uint8_t *pins;
    size_t pins_len;
    size_t reference, seed;
    const uint8_t *flips;
    size_t flips_len;
    const uint8_t *perms;
    size_t perms_len;
    const uint8_t *greys;
    size_t greys_len;
    const uint32_t *labels;
    size_t labels_len;
    const uint32_t *grey_labels;
    size_t grey_labels_len;
    const uint8_t *member_sites;
    size_t member_sites_len;
    const uint8_t *blue;
    size_t blue_len;
    uint8_t *area;
    size_t area_len;
};

struct tsorvenk_task_write_args {
    uint8_t mode, form, keeps;
    size_t n, d, members;
    int8_t *rows;
    size_t rows_len;
    int64_t *totals;
    size_t totals_len;
    const uint32_t *fwd;
    size_t fwd_len;
    const uint32_t *bwd;
    size_t bwd_len;
    const int32_t *couplings;
    size_t couplings_len;
    const uint8_t *member_sites;
    size_t member_sites_len;
    const uint8_t *area;
    size_t area_len;
};

struct tsorvenk_pack_args {
    size_t n, members;
    const int8_t *rows;
    size_t rows_len;
    uint8_t *columns;
    size_t columns_len;
};

struct tsorvenk_unpack_args {
    size_t n, members;
    const uint8_t *columns;
    size_t columns_len;
    int8_t *rows;
    size_t rows_len;
};

struct tsorvenk_packed_step_args {
    uint8_t mode, form, coding, keeps;
    size_t n, d, members;
    uint8_t *columns;
    size_t columns_len;
    int64_t *totals;
    size_t totals_len;
    const uint32_t *fwd;
    size_t fwd_len;
    const uint32_t *bwd;
    size_t bwd_len;
    const uint8_t *pins;
    size_t pins_len;
    const int32_t *couplings;
    size_t couplings_len;
    float temperature;
    const float *cuts;
    size_t cuts_len;
    size_t reference, seed;
    const uint8_t *flips;
    size_t flips_len;
    const uint8_t *perms;
    size_t perms_len;
    const uint8_t *greys;
    size_t greys_len;
    uint32_t *labels;
    size_t labels_len;
    uint32_t *grey_labels;
    size_t grey_labels_len;
    uint32_t *counts;
    size_t counts_len;
    uint32_t *sizes;
    size_t sizes_len;
    uint8_t *member_sites;
    size_t member_sites_len;
    uint32_t *found;
    size_t found_len;
    uint32_t *grey_found;
    size_t grey_found_len;
};

struct tsorvenk_check_vendor_args {
    uint8_t mode;
    size_t n, d, members, reference;
    const uint32_t *fwd;
    size_t fwd_len;
    const uint32_t *bwd;
    size_t bwd_len;
    const uint8_t *pins;
    size_t pins_len;
    const int8_t *before;
    size_t before_len;
    const int8_t *after;
    size_t after_len;
    uint8_t *rows;
    size_t rows_len;
    uint32_t *fault;
    size_t fault_len;
};

struct tsorvenk_energy_args {
    size_t n, d, s;
    uint8_t team;
    const uint8_t *owners;
    size_t owners_len;
    const int8_t *spins;
    size_t spins_len;
    const uint32_t *fwd;
    size_t fwd_len;
    const uint32_t *bwd;
    size_t bwd_len;
    const int32_t *couplings;
    size_t couplings_len;
    size_t system;
    int64_t *energy;
    size_t energy_len;
};

struct tsorvenk_hand_over_args {
    size_t n, d, s;
    uint8_t team;
    const uint8_t *owners;
    size_t owners_len;
    const int8_t *spins;
    size_t spins_len;
    const int64_t *totals;
    size_t totals_len;
    const uint32_t *fwd;
    size_t fwd_len;
    const uint32_t *bwd;
    size_t bwd_len;
    const int32_t *couplings;
    size_t couplings_len;
};

struct tsorvenk_label_args {
    size_t n, d;
    const uint32_t *fwd;
    size_t fwd_len;
    const uint8_t *holds;
    size_t holds_len;
    const uint8_t *counted;
    size_t counted_len;
    uint32_t *labels;
    size_t labels_len;
    uint32_t *counts;
    size_t counts_len;
    uint32_t *sizes;
    size_t sizes_len;
    uint32_t *found;
    size_t found_len;
};

struct tsorvenk_draw_args {
    uint32_t m;
    size_t members;
    uint64_t *source;
    size_t source_len;
    uint64_t *word;
    size_t word_len;
    uint8_t *coin;
    size_t coin_len;
    uint32_t *number;
    size_t number_len;
    uint8_t *row;
    size_t row_len;
    uint8_t *flips;
    size_t flips_len;
    uint32_t *numbers;
    size_t numbers_len;
    uint8_t *bytes;
    size_t bytes_len;
    uint8_t *rows;
    size_t rows_len;
    uint8_t *greys;
    size_t greys_len;
    uint8_t *perms;
    size_t perms_len;
};

struct tsorvenk_read_edges_args {
    size_t n, d;
    const uint32_t *fwd;
    size_t fwd_len;
    const uint32_t *bwd;
    size_t bwd_len;
    const uint8_t *text;
    size_t text_len;
    int32_t *couplings;
    size_t couplings_len;
};

struct tsorvenk_write_edges_args {
    size_t n, d;
    const uint32_t *fwd;
    size_t fwd_len;
    const uint32_t *bwd;
    size_t bwd_len;
    const int32_t *couplings;
    size_t couplings_len;
    uint8_t *text;
    size_t text_len;
    size_t *written;
    size_t written_len;
};

/* A buffer of args as the two arguments that the functions above take. Where it is left out they get a pointer to the
 * local NONE, of the buffer's type, since they ask for one that is not null. */
#define TSORVENK_LENT(buffer, none) args->buffer ? args->buffer : &none, args->buffer ? args->buffer##_len : 0

/* Pins of nothing, as long as n may be, and one owner everywhere. */
static inline const uint8_t *tsorvenk_zeros(void) {
    static const uint8_t zeros[4096] = {0};
    return zeros;
}

/* A table of bytes of args likewise, where it is left out so many zeros as there are sites or systems, and no more than these:
 * an n above 4096 is refused with 1, an s above 4096 with 2. */
#define TSORVENK_BYTES(bytes, number) \
    args->bytes ? args->bytes : tsorvenk_zeros(), args->bytes ? args->bytes##_len : args->number < 4096 ? args->number : 4096
#define TSORVENK_PINS TSORVENK_BYTES(pins, n)
#define TSORVENK_OWNERS TSORVENK_BYTES(owners, s)

static inline uint8_t tsorvenk_step_with(const struct tsorvenk_step_args *args) {
    int8_t no_i8 = 0;
    uint8_t no_u8 = 0;
    int32_t no_i32 = 0;
    uint32_t no_u32 = 0;
    int64_t no_i64 = 0;
    float no_f32 = 0;
    return tsorvenk_step(args->mode, args->form, args->coding, args->keeps, args->n, args->d, args->s, args->team,
        TSORVENK_OWNERS, TSORVENK_LENT(spins, no_i8), TSORVENK_LENT(totals, no_i64), TSORVENK_LENT(fwd, no_u32),
        TSORVENK_LENT(bwd, no_u32), TSORVENK_PINS, TSORVENK_LENT(couplings, no_i32), TSORVENK_LENT(group, no_u32),
        args->temperature, TSORVENK_LENT(cuts, no_f32), args->reference, args->seed, TSORVENK_LENT(flips, no_u8),
        TSORVENK_LENT(perms, no_u8), TSORVENK_LENT(greys, no_u8), TSORVENK_LENT(labels, no_u32),
        TSORVENK_LENT(grey_labels, no_u32), TSORVENK_LENT(counts, no_u32), TSORVENK_LENT(sizes, no_u32),
        TSORVENK_LENT(member_sites, no_u8), TSORVENK_LENT(found, no_u32), TSORVENK_LENT(grey_found, no_u32));
}

static inline uint8_t tsorvenk_sweep_with(const struct tsorvenk_sweep_args *args) {
    int8_t no_i8 = 0;
    uint8_t no_u8 = 0;
    int32_t no_i32 = 0;
    uint32_t no_u32 = 0;
    int64_t no_i64 = 0;
    float no_f32 = 0;
    return tsorvenk_sweep(args->mode, args->form, args->coding, args->keeps, args->n, args->d, args->s, args->team,
        args->t, args->r, args->members, TSORVENK_OWNERS, TSORVENK_LENT(spins, no_i8),
        TSORVENK_LENT(totals, no_i64), TSORVENK_LENT(fwd, no_u32), TSORVENK_LENT(bwd, no_u32),
        TSORVENK_PINS, TSORVENK_LENT(couplings, no_i32), TSORVENK_LENT(order, no_u32), TSORVENK_LENT(masks, no_u8),
        TSORVENK_LENT(temperatures, no_f32), TSORVENK_LENT(cuts, no_f32), TSORVENK_LENT(references, no_u32),
        TSORVENK_LENT(seeds, no_u32), TSORVENK_LENT(flips, no_u8), TSORVENK_LENT(perms, no_u8),
        TSORVENK_LENT(greys, no_u8), TSORVENK_LENT(labels, no_u32), TSORVENK_LENT(grey_labels, no_u32),
        TSORVENK_LENT(counts, no_u32), TSORVENK_LENT(sizes, no_u32), TSORVENK_LENT(member_sites, no_u8),
        TSORVENK_LENT(found, no_u32), TSORVENK_LENT(grey_found, no_u32), TSORVENK_LENT(outcomes, no_u32));
}

static inline uint8_t tsorvenk_test_sweep_with(const struct tsorvenk_test_sweep_args *args) {
    int8_t no_i8 = 0;
    uint8_t no_u8 = 0;
    int32_t no_i32 = 0;
    uint32_t no_u32 = 0;
    int64_t no_i64 = 0;
    float no_f32 = 0;
    return tsorvenk_test_sweep(args->mode, args->form, args->keeps, args->n, args->d, args->s, args->team,
        args->t, args->r, args->members, TSORVENK_OWNERS, TSORVENK_LENT(spins, no_i8),
        TSORVENK_LENT(totals, no_i64), TSORVENK_LENT(fwd, no_u32), TSORVENK_LENT(bwd, no_u32),
        TSORVENK_PINS, TSORVENK_LENT(couplings, no_i32), TSORVENK_LENT(order, no_u32), TSORVENK_LENT(masks, no_u8),
        TSORVENK_LENT(temperatures, no_f32), TSORVENK_LENT(cuts, no_f32), TSORVENK_LENT(references, no_u32),
        TSORVENK_LENT(seeds, no_u32), TSORVENK_LENT(flips, no_u8), TSORVENK_LENT(perms, no_u8),
        TSORVENK_LENT(greys, no_u8), TSORVENK_LENT(labels, no_u32), TSORVENK_LENT(grey_labels, no_u32),
        TSORVENK_LENT(counts, no_u32), TSORVENK_LENT(sizes, no_u32), TSORVENK_LENT(member_sites, no_u8),
        TSORVENK_LENT(found, no_u32), TSORVENK_LENT(grey_found, no_u32));
}

static inline uint8_t tsorvenk_task_label_with(const struct tsorvenk_task_label_args *args) {
    int8_t no_i8 = 0;
    uint8_t no_u8 = 0;
    int32_t no_i32 = 0;
    uint32_t no_u32 = 0;
    float no_f32 = 0;
    return tsorvenk_task_label(args->mode, args->form, args->n, args->d, args->members, TSORVENK_LENT(rows, no_i8),
        TSORVENK_LENT(fwd, no_u32), TSORVENK_LENT(bwd, no_u32), TSORVENK_PINS, TSORVENK_LENT(couplings, no_i32),
        args->temperature, TSORVENK_LENT(cuts, no_f32), args->reference, args->seed, TSORVENK_LENT(flips, no_u8),
        TSORVENK_LENT(perms, no_u8), TSORVENK_LENT(greys, no_u8), TSORVENK_LENT(labels, no_u32),
        TSORVENK_LENT(grey_labels, no_u32), TSORVENK_LENT(counts, no_u32), TSORVENK_LENT(sizes, no_u32),
        TSORVENK_LENT(member_sites, no_u8), TSORVENK_LENT(found, no_u32), TSORVENK_LENT(grey_found, no_u32),
        TSORVENK_LENT(blue, no_u8));
}

static inline uint8_t tsorvenk_task_choose_with(const struct tsorvenk_task_choose_args *args) {
    int8_t no_i8 = 0;
    uint8_t no_u8 = 0;
    uint32_t no_u32 = 0;
    return tsorvenk_task_choose(args->mode, args->form, args->n, args->d, args->members, TSORVENK_LENT(rows, no_i8),
        TSORVENK_PINS, args->reference, args->seed, TSORVENK_LENT(flips, no_u8), TSORVENK_LENT(perms, no_u8),
        TSORVENK_LENT(greys, no_u8), TSORVENK_LENT(labels, no_u32), TSORVENK_LENT(grey_labels, no_u32),
        TSORVENK_LENT(member_sites, no_u8), TSORVENK_LENT(blue, no_u8), TSORVENK_LENT(area, no_u8));
}

static inline uint8_t tsorvenk_task_write_with(const struct tsorvenk_task_write_args *args) {
    int8_t no_i8 = 0;
    uint8_t no_u8 = 0;
    int32_t no_i32 = 0;
    uint32_t no_u32 = 0;
    int64_t no_i64 = 0;
    return tsorvenk_task_write(args->mode, args->form, args->keeps, args->n, args->d, args->members,
        TSORVENK_LENT(rows, no_i8), TSORVENK_LENT(totals, no_i64), TSORVENK_LENT(fwd, no_u32), TSORVENK_LENT(bwd, no_u32),
        TSORVENK_LENT(couplings, no_i32), TSORVENK_LENT(member_sites, no_u8), TSORVENK_LENT(area, no_u8));
}

static inline uint8_t tsorvenk_pack_with(const struct tsorvenk_pack_args *args) {
    int8_t no_i8 = 0;
    uint8_t no_u8 = 0;
    return tsorvenk_pack(args->n, args->members, TSORVENK_LENT(rows, no_i8), TSORVENK_LENT(columns, no_u8));
}

static inline uint8_t tsorvenk_unpack_with(const struct tsorvenk_unpack_args *args) {
    int8_t no_i8 = 0;
    uint8_t no_u8 = 0;
    return tsorvenk_unpack(args->n, args->members, TSORVENK_LENT(columns, no_u8), TSORVENK_LENT(rows, no_i8));
}

static inline uint8_t tsorvenk_packed_step_with(const struct tsorvenk_packed_step_args *args) {
    uint8_t no_u8 = 0;
    int32_t no_i32 = 0;
    uint32_t no_u32 = 0;
    int64_t no_i64 = 0;
    float no_f32 = 0;
    return tsorvenk_packed_step(args->mode, args->form, args->coding, args->keeps, args->n, args->d, args->members,
        TSORVENK_LENT(columns, no_u8), TSORVENK_LENT(totals, no_i64), TSORVENK_LENT(fwd, no_u32), TSORVENK_LENT(bwd, no_u32),
        TSORVENK_PINS, TSORVENK_LENT(couplings, no_i32), args->temperature, TSORVENK_LENT(cuts, no_f32),
        args->reference, args->seed, TSORVENK_LENT(flips, no_u8), TSORVENK_LENT(perms, no_u8), TSORVENK_LENT(greys, no_u8),
        TSORVENK_LENT(labels, no_u32), TSORVENK_LENT(grey_labels, no_u32), TSORVENK_LENT(counts, no_u32),
        TSORVENK_LENT(sizes, no_u32), TSORVENK_LENT(member_sites, no_u8), TSORVENK_LENT(found, no_u32),
        TSORVENK_LENT(grey_found, no_u32));
}

static inline uint8_t tsorvenk_check_vendor_with(const struct tsorvenk_check_vendor_args *args) {
    int8_t no_i8 = 0;
    uint8_t no_u8 = 0;
    uint32_t no_u32 = 0;
    return tsorvenk_check_vendor(args->mode, args->n, args->d, args->members, args->reference, TSORVENK_LENT(fwd, no_u32),
        TSORVENK_LENT(bwd, no_u32), TSORVENK_PINS, TSORVENK_LENT(before, no_i8), TSORVENK_LENT(after, no_i8),
        TSORVENK_LENT(rows, no_u8), TSORVENK_LENT(fault, no_u32));
}

static inline uint8_t tsorvenk_energy_with(const struct tsorvenk_energy_args *args) {
    int8_t no_i8 = 0;
    int32_t no_i32 = 0;
    uint32_t no_u32 = 0;
    int64_t no_i64 = 0;
    return tsorvenk_energy(args->n, args->d, args->s, args->team, TSORVENK_OWNERS, TSORVENK_LENT(spins, no_i8),
        TSORVENK_LENT(fwd, no_u32), TSORVENK_LENT(bwd, no_u32), TSORVENK_LENT(couplings, no_i32), args->system,
        TSORVENK_LENT(energy, no_i64));
}

static inline uint8_t tsorvenk_hand_over_with(const struct tsorvenk_hand_over_args *args) {
    int8_t no_i8 = 0;
    int32_t no_i32 = 0;
    uint32_t no_u32 = 0;
    int64_t no_i64 = 0;
    return tsorvenk_hand_over(args->n, args->d, args->s, args->team, TSORVENK_OWNERS, TSORVENK_LENT(spins, no_i8),
        TSORVENK_LENT(totals, no_i64), TSORVENK_LENT(fwd, no_u32), TSORVENK_LENT(bwd, no_u32), TSORVENK_LENT(couplings, no_i32));
}

static inline uint8_t tsorvenk_label_with(const struct tsorvenk_label_args *args) {
    uint8_t no_u8 = 0;
    uint32_t no_u32 = 0;
    return tsorvenk_label(args->n, args->d, TSORVENK_LENT(fwd, no_u32), TSORVENK_LENT(holds, no_u8),
        TSORVENK_LENT(counted, no_u8), TSORVENK_LENT(labels, no_u32), TSORVENK_LENT(counts, no_u32),
        TSORVENK_LENT(sizes, no_u32), TSORVENK_LENT(found, no_u32));
}

static inline uint8_t tsorvenk_word_with(const struct tsorvenk_draw_args *args) {
    uint64_t no_u64 = 0;
    return tsorvenk_word(TSORVENK_LENT(source, no_u64), TSORVENK_LENT(word, no_u64));
}

static inline uint8_t tsorvenk_coin_with(const struct tsorvenk_draw_args *args) {
    uint64_t no_u64 = 0;
    uint8_t no_u8 = 0;
    return tsorvenk_coin(TSORVENK_LENT(source, no_u64), TSORVENK_LENT(coin, no_u8));
}

static inline uint8_t tsorvenk_below_with(const struct tsorvenk_draw_args *args) {
    uint64_t no_u64 = 0;
    uint32_t no_u32 = 0;
    return tsorvenk_below(args->m, TSORVENK_LENT(source, no_u64), TSORVENK_LENT(number, no_u32));
}

static inline uint8_t tsorvenk_permutation_with(const struct tsorvenk_draw_args *args) {
    uint64_t no_u64 = 0;
    uint8_t no_u8 = 0;
    return tsorvenk_permutation(args->members, TSORVENK_LENT(source, no_u64), TSORVENK_LENT(row, no_u8));
}

static inline uint8_t tsorvenk_fill_flips_with(const struct tsorvenk_draw_args *args) {
    uint64_t no_u64 = 0;
    uint8_t no_u8 = 0;
    return tsorvenk_fill_flips(TSORVENK_LENT(source, no_u64), TSORVENK_LENT(flips, no_u8));
}

static inline uint8_t tsorvenk_fill_below_with(const struct tsorvenk_draw_args *args) {
    uint64_t no_u64 = 0;
    uint32_t no_u32 = 0;
    return tsorvenk_fill_below(args->m, TSORVENK_LENT(source, no_u64), TSORVENK_LENT(numbers, no_u32));
}

static inline uint8_t tsorvenk_fill_bytes_below_with(const struct tsorvenk_draw_args *args) {
    uint64_t no_u64 = 0;
    uint8_t no_u8 = 0;
    return tsorvenk_fill_bytes_below(args->m, TSORVENK_LENT(source, no_u64), TSORVENK_LENT(bytes, no_u8));
}

static inline uint8_t tsorvenk_fill_permutations_with(const struct tsorvenk_draw_args *args) {
    uint64_t no_u64 = 0;
    uint8_t no_u8 = 0;
    return tsorvenk_fill_permutations(args->members, TSORVENK_LENT(source, no_u64), TSORVENK_LENT(rows, no_u8));
}

static inline uint8_t tsorvenk_wolff_permutation_with(const struct tsorvenk_draw_args *args) {
    uint64_t no_u64 = 0;
    uint8_t no_u8 = 0;
    return tsorvenk_wolff_permutation(args->members, TSORVENK_LENT(source, no_u64), TSORVENK_LENT(rows, no_u8));
}

static inline uint8_t tsorvenk_wolff_grey_with(const struct tsorvenk_draw_args *args) {
    uint64_t no_u64 = 0;
    uint8_t no_u8 = 0;
    return tsorvenk_wolff_grey(TSORVENK_LENT(source, no_u64), TSORVENK_LENT(greys, no_u8));
}

static inline uint8_t tsorvenk_fill_numbers_with(const struct tsorvenk_draw_args *args) {
    uint64_t no_u64 = 0;
    uint8_t no_u8 = 0;
    return tsorvenk_fill_numbers(TSORVENK_LENT(source, no_u64), TSORVENK_LENT(perms, no_u8));
}

static inline uint8_t tsorvenk_wolff_numbers_with(const struct tsorvenk_draw_args *args) {
    uint64_t no_u64 = 0;
    uint8_t no_u8 = 0;
    return tsorvenk_wolff_numbers(TSORVENK_LENT(source, no_u64), TSORVENK_LENT(perms, no_u8));
}

static inline uint8_t tsorvenk_read_edges_with(const struct tsorvenk_read_edges_args *args) {
    uint8_t no_u8 = 0;
    int32_t no_i32 = 0;
    uint32_t no_u32 = 0;
    return tsorvenk_read_edges(args->n, args->d, TSORVENK_LENT(fwd, no_u32), TSORVENK_LENT(bwd, no_u32),
        TSORVENK_LENT(text, no_u8), TSORVENK_LENT(couplings, no_i32));
}

static inline uint8_t tsorvenk_write_edges_with(const struct tsorvenk_write_edges_args *args) {
    uint8_t no_u8 = 0;
    int32_t no_i32 = 0;
    uint32_t no_u32 = 0;
    size_t no_size = 0;
    return tsorvenk_write_edges(args->n, args->d, TSORVENK_LENT(fwd, no_u32), TSORVENK_LENT(bwd, no_u32),
        TSORVENK_LENT(couplings, no_i32), TSORVENK_LENT(text, no_u8), TSORVENK_LENT(written, no_size));
}

#undef TSORVENK_LENT
#undef TSORVENK_BYTES
#undef TSORVENK_PINS
#undef TSORVENK_OWNERS

/* Words for each number that comes back, and for 11, which a text of frames may be answered with. */
static inline const char *tsorvenk_refusal_words(int number) {
    switch (number) {
    case 0: return "not refused";
    case 1: return "a size, a group's size, the mode, the form, the coding or what is kept is out of its range";
    case 2: return "a buffer's length is not the exact one";
    case 3:
        return "a spin of a named system or a vendor's is not +1 or -1, a packed byte has a bit from N upwards, or an owner byte or "
               "the team is above 1";
    case 4: return "a neighbour is n or more, the forward and backward tables are not inverse, or a pin byte is not 0 or 1";
    case 5: return "a system is s or more, the other team's or stands twice";
    case 6: return "a coupling's size is above 1,000,000";
    case 7: return "a temperature is not from 1/1024 to 1,048,576";
    case 8: return "a cut is below 0, infinite or not a number";
    case 9:
        return "a permutation or its number, flip, grey number, reference site, mask byte, byte of holds or counted, or what a "
               "task's first step found is out of its set";
    case 10: return "a seed is n or more, or does not act although some site does";
    case 11: return "a frame is missing, misplaced, misspelt or of the wrong length, or there is one too many";
    case 12: return "a source of draws is all 0, m or the members are out of range, or 64 words in a row were taken again";
    case 13: return "a text is no edge list of this lattice: its form, n, m, a site, or a line for which no bond is left";
    case 14: return "a total is not its system's energy at the hand-over, or is above 16,384,000,000 in size";
    case 15: return "houd moves groups of two alone; it observes groups of any size";
    case TSORVENK_IDLE: return "not refused: no site acts";
    case TSORVENK_NO_ROOM: return "there is no room for the answer";
    case TSORVENK_HELD: return "not refused: a pin holds the seed's component";
    case TSORVENK_NO: return "not refused: the vendor's spins are not accepted, a component is at fault";
    default: return "a number that no call gives";
    }
}

#ifdef __cplusplus
}
#endif

#endif
