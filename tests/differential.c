/* The library against the plain search, over chance maps of every kind, with fixed seeds.
 *
 *   CALLS=N   go on for at least N calls (655,000 if not said)
 *   SEED=N    other maps than the usual ones
 *   FIRST=1   end at the first part that fails
 *   TIGHT=1   no guard words, memory ends where tables end: for a run under a checker of memory */
#include "parts.h"

#include <stdio.h>

/* A part is run in every so-many-th round. */
static const struct {
    const char *name;
    void (*run)(void);
    uint64_t every;
} parts[] = {
    { "fields", part_fields, 1 },       { "fences", part_fences, 1 },       { "fans", part_fans, 1 },
    { "parallels", part_parallels, 1 }, { "corners", part_corners, 1 },     { "rims", part_rims, 1 },
    { "crowd", part_crowd, 1 },         { "deep", part_deep, 1 },           { "handles", part_handles, 1 },
    { "garbage", part_garbage, 1 },     { "one fault", part_one_fault, 1 }, { "noise", part_noise, 1 },
    { "orders", part_orders, 1 },       { "lengths", part_lengths, 1 },     { "room", part_room, 1 },
    { "hubs", part_hubs, 1 },           { "large", part_large, 3 },         { "full", part_full, 15 },
    { "great fans", part_great_fans, 15 }, { "pairs", part_pairs, 1 },   { "several", part_several, 1 },
    { "windows", part_windows, 1 },     { "bounds", part_bounds, 1 },       { "sheets", part_sheets, 1 },
};

enum { PARTS = sizeof parts / sizeof *parts };

static int failed_part[PARTS];
static uint64_t calls_of_part[PARTS];

static int failures(void)
{
    size_t i;
    int count = 0;

    for (i = 0; i < PARTS; i++)
        count += failed_part[i];
    return count;
}

/* Seeds tell the part and the round; a part that has failed is not run again. */
static void run_round(uint64_t round, uint64_t first_seed, int most_failures)
{
    size_t i;

    for (i = 0; i < PARTS && failures() < most_failures; i++) {
        uint64_t before = met.calls;

        if (failed_part[i] || round % parts[i].every != 0)
            continue;
        failed_part[i] = !run_part(parts[i].name, (first_seed + round) * 100 + i, parts[i].run);
        calls_of_part[i] += met.calls - before;
    }
}

static void report(void)
{
    size_t i;

    printf("differential: calls by part:");
    for (i = 0; i < PARTS; i++)
        printf(" %s %llu%s", parts[i].name, (unsigned long long)calls_of_part[i], i + 1 < PARTS ? "," : "\n");
    printf("differential: answers by refusal:");
    for (i = 0; i < REFUSALS; i++)
        printf(" %zu %llu%s", i, (unsigned long long)met.refusals[i], i + 1 < REFUSALS ? "," : "\n");
    printf("differential: conflicts by kind: crossing %llu, touching %llu, overlap %llu, same %llu\n",
           (unsigned long long)met.kinds[1], (unsigned long long)met.kinds[2], (unsigned long long)met.kinds[3],
           (unsigned long long)met.kinds[4]);
    printf("differential: points: outside or unlabelled %llu, labelled %llu, on a line %llu, off the grid %llu\n",
           (unsigned long long)met.answers[ANSWER_NONE], (unsigned long long)met.answers[ANSWER_LABEL],
           (unsigned long long)met.answers[ANSWER_ON_LINE], (unsigned long long)met.answers[ANSWER_OFF_GRID]);
    printf("differential: points on no line: a label from below %llu, of these 0 with another above %llu; from above %llu, of these "
           "under a west end %llu, under two lines from one %llu; from neither %llu, of these under an east end %llu\n",
           (unsigned long long)met.ways[FROM_BELOW], (unsigned long long)met.ways[BELOW_IS_0],
           (unsigned long long)met.ways[FROM_ABOVE], (unsigned long long)met.ways[UNDER_WEST_END],
           (unsigned long long)met.ways[UNDER_FORK], (unsigned long long)met.ways[FROM_NEITHER],
           (unsigned long long)met.ways[UNDER_EAST_END]);
    printf("differential: %llu calls on sound maps, of %.1f lines on average, %llu at most\n",
           (unsigned long long)met.sound_calls, (double)met.live_lines / (double)(met.sound_calls + 1),
           (unsigned long long)met.most_lines);
    printf("differential: %llu calls, all tables and lists compared after each\n",
           (unsigned long long)met.calls);
}

int none_of(const uint64_t *counts, size_t many)
{
    int none = 0;

    while (many-- > 0)
        none += counts[many] == 0;
    return none;
}

/* A refusal, a kind, a way to find a label, a way to touch a window or a turn at the range's ends that never came back was not
 * tested: then the run has failed, though nothing differed. */
static int never_seen(void)
{
    int none = report_kinds() + report_windows() + report_bounds() + none_of(met.refusals, REFUSALS)
        + none_of(met.kinds + 1, KINDS - 1) + none_of(met.ways, WAYS);

    if (none > 0)
        printf("differential: %d of the counts above are 0, and none may be\n", none);
    return none > 0;
}

int main(void)
{
    uint64_t wanted = setting("CALLS", 655000), first_seed = setting("SEED", 1), round;
    int most_failures = setting("FIRST", 0) != 0 ? 1 : PARTS, unseen;

    for (round = 0; met.calls < wanted && failures() < most_failures; round++)
        run_round(round, first_seed, most_failures);
    report();
    unseen = never_seen();
    printf("differential: %d passed, %d failed\n", PARTS - failures(), failures() + unseen);
    return failures() + unseen != 0;
}
