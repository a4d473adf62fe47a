/* See harness.h. */
#include "harness.h"

#include "library.h"

#include <setjmp.h>
#include <stdarg.h>
#include <stdio.h>
#include <stdlib.h>
#include <string.h>

struct met met;

static jmp_buf out_of_part;
static const char *part_name;
static uint64_t part_seed;
static char doing[160];          /* the call that is being compared, in words */

/* Chance: splitmix64 */

static uint64_t state;

void seed(uint64_t with)
{
    state = with;
}

uint64_t chance(void)
{
    uint64_t z = (state += UINT64_C(0x9e3779b97f4a7c15));

    z = (z ^ (z >> 30)) * UINT64_C(0xbf58476d1ce4e5b9);
    z = (z ^ (z >> 27)) * UINT64_C(0x94d049bb133111eb);
    return z ^ (z >> 31);
}

uint32_t under(uint32_t bound)
{
    return (uint32_t)((chance() >> 32) * bound >> 32);
}

int32_t between(int32_t from, int32_t to)
{
    return from + (int32_t)under((uint32_t)(to - from + 1));
}

int one_in(uint32_t times)
{
    return under(times) == 0;
}

uint64_t setting(const char *name, uint64_t otherwise)
{
    const char *text = getenv(name);

    return text == NULL || *text == '\0' ? otherwise : strtoull(text, NULL, 10);
}

/* Lent memory: guard words, the entries, guard words. With TIGHT set there are no guards and every block of memory
 * ends where its entries end, so that a checker of memory sees a read that goes one too far. */

enum { GUARDS = 8, MOST_TABLE = PLAIN_ROOM + 8 };

static const uint16_t leftover = 0xc35a;

/* What stands beside a table reads as one more live slot, one that conflicts with much: a call that looks past an
 * end is misled by it. */
static uint16_t guard_word(size_t i)
{
    static const uint16_t slot[GUARDS] = { 1, 1, 0, 0, 16383, 16383, 50010, 50011 };

    return slot[i % GUARDS];
}

static size_t guards(void)
{
    static size_t number = GUARDS;
    static int asked;

    if (!asked) {
        number = setting("TIGHT", 0) != 0 ? 0 : GUARDS;
        asked = 1;
    }
    return number;
}

struct lent {
    uint16_t *memory, *entries;
    size_t length;               /* of the entries */
};

static size_t memory_length(const struct lent *l)
{
    return l->length + 2 * guards();
}

static void lend_memory(struct lent *l, size_t length)
{
    size_t i;

    l->length = length;
    l->memory = malloc(memory_length(l) * sizeof *l->memory + (memory_length(l) == 0));
    if (l->memory == NULL) {
        fputs("no memory\n", stderr);
        exit(2);
    }
    l->entries = l->memory + guards();
    for (i = 0; i < guards(); i++)
        l->memory[i] = l->entries[length + i] = guard_word(i);
    for (i = 0; i < length; i++)
        l->entries[i] = leftover;
}

static void take_back(struct lent *l)
{
    free(l->memory);
    l->memory = NULL;
}

static int guards_stand(const struct lent *l)
{
    size_t i;

    for (i = 0; i < guards(); i++)
        if (l->memory[i] != guard_word(i) || l->entries[l->length + i] != guard_word(i))
            return 0;
    return 1;
}

/* The map on both sides */

static struct {
    struct lent of_library[TABLES], of_plain[TABLES];
    size_t length[TABLES];       /* as said in calls */
    struct plain plain;
    uint16_t kept[TABLES][MOST_TABLE];
} map;

/* The lists of a locate on both sides, where an answer is kept as two entries, and the list of a window. */
static struct {
    struct lent points[2], answers[2], slots[2];
} lists;

static const char *const table_names[TABLES] = { "line table", "node table", "listing table" };

static void take_all_back(void)
{
    int i;

    for (i = 0; i < TABLES; i++) {
        take_back(&map.of_library[i]);
        take_back(&map.of_plain[i]);
    }
    for (i = 0; i < 2; i++) {
        take_back(&lists.points[i]);
        take_back(&lists.answers[i]);
        take_back(&lists.slots[i]);
    }
}

static void tell_plain(void)
{
    plain_take(&map.plain, map.of_plain[LINES].entries, map.length[LINES], map.of_plain[NODES].entries,
               map.length[NODES], map.of_plain[LISTINGS].entries, map.length[LISTINGS]);
}

void lend(size_t lines_len, size_t nodes_len, size_t listings_len)
{
    int i;

    take_all_back();
    map.length[LINES] = lines_len;
    map.length[NODES] = nodes_len;
    map.length[LISTINGS] = listings_len;
    for (i = 0; i < TABLES; i++) {
        lend_memory(&map.of_library[i], map.length[i]);
        lend_memory(&map.of_plain[i], map.length[i]);
    }
    tell_plain();
}

void begin(size_t slots, size_t nodes_len, size_t listings_len)
{
    lend(8 * slots, nodes_len, listings_len);
    start();
}

void say(int table, size_t length)
{
    map.length[table] = length;
    tell_plain();
}

size_t said(int table)
{
    return map.length[table];
}

size_t capacity(int table)
{
    return map.of_plain[table].length;
}

uint16_t peek(int table, size_t at)
{
    return map.of_plain[table].entries[at];
}

void poke(int table, size_t at, uint16_t value)
{
    map.of_library[table].entries[at] = value;
    map.of_plain[table].entries[at] = value;
    plain_forget(&map.plain);
}

void keep(void)
{
    int i;

    for (i = 0; i < TABLES; i++)
        memcpy(map.kept[i], map.of_plain[i].entries, capacity(i) * sizeof(uint16_t));
}

void put_back(void)
{
    int i;

    for (i = 0; i < TABLES; i++) {
        memcpy(map.of_plain[i].entries, map.kept[i], capacity(i) * sizeof(uint16_t));
        memcpy(map.of_library[i].entries, map.kept[i], capacity(i) * sizeof(uint16_t));
    }
    plain_forget(&map.plain);
}

int rebuild(void)
{
    int i, fits = plain_rebuild(&map.plain);

    for (i = 0; i < TABLES; i++)
        memcpy(map.of_library[i].entries, map.of_plain[i].entries, capacity(i) * sizeof(uint16_t));
    return fits;
}

int is_sound(void)
{
    return plain_sound(&map.plain);
}

void used(size_t *nodes, size_t *listings)
{
    plain_used(&map.plain, nodes, listings);
}

/* What went wrong */

static void print_map(void)
{
    size_t i, shown = 0;

    printf("  lengths said: %zu lines, %zu nodes, %zu listings; the plain search's live lines now:\n",
           map.length[LINES], map.length[NODES], map.length[LISTINGS]);
    for (i = 0; i + 8 <= capacity(LINES) && shown < 12; i += 8) {
        const uint16_t *s = map.of_plain[LINES].entries + i;

        if (s[0] == 0)
            continue;
        printf("    slot %zu generation %u: (%u,%u)-(%u,%u) left %u right %u\n", i / 8, s[1], s[2], s[3],
               s[4], s[5], s[6], s[7]);
        shown++;
    }
}

void fail(const char *what)
{
    printf("%s, seed %llu, call %llu: %s: %s\n", part_name, (unsigned long long)part_seed,
           (unsigned long long)met.calls, doing, what);
    print_map();
    longjmp(out_of_part, 1);
}

static void differ(const char *form, ...)
{
    char text[200];
    va_list more;

    va_start(more, form);
    vsnprintf(text, sizeof text, form, more);
    va_end(more);
    fail(text);
}

static void compare_lent(const char *name, const struct lent *library, const struct lent *plain)
{
    size_t i;

    for (i = 0; i < library->length; i++)
        if (library->entries[i] != plain->entries[i])
            differ("%s entry %zu: library %u, plain search %u", name, i, library->entries[i],
                   plain->entries[i]);
    differ("%s: a word beside it was written", name);
}

static int same_lent(const struct lent *library, const struct lent *plain)
{
    return memcmp(library->memory, plain->memory, memory_length(plain) * sizeof(uint16_t)) == 0
        && guards_stand(library) && guards_stand(plain);
}

static void count_call(uint64_t plain)
{
    met.refusals[plain >> 32]++;
    if (plain >> 32 == 5)
        met.kinds[(plain & 0xffffffff) >> 16]++;
    if (map.plain.verdict != PLAIN_SOUND)
        return;
    met.sound_calls++;
    met.live_lines += map.plain.count;
    if (map.plain.count > met.most_lines)
        met.most_lines = map.plain.count;
}

static void compare_all(uint64_t library, uint64_t plain)
{
    int i;

    met.calls++;
    if (library != plain)
        differ("library gives %llu, %llu, plain search %llu, %llu", (unsigned long long)(library >> 32),
               (unsigned long long)(library & 0xffffffff), (unsigned long long)(plain >> 32),
               (unsigned long long)(plain & 0xffffffff));
    for (i = 0; i < TABLES; i++)
        if (!same_lent(&map.of_library[i], &map.of_plain[i]))
            compare_lent(table_names[i], &map.of_library[i], &map.of_plain[i]);
    count_call(plain);
}

/* The calls */

#define LIBRARY_TABLES                                                                                    \
    map.of_library[LINES].entries, map.length[LINES], map.of_library[NODES].entries, map.length[NODES],   \
        map.of_library[LISTINGS].entries, map.length[LISTINGS]

uint64_t start(void)
{
    uint64_t library, plain;

    snprintf(doing, sizeof doing, "start");
    library = boundary_map_start(LIBRARY_TABLES);
    plain = plain_start(&map.plain);
    compare_all(library, plain);
    return plain;
}

uint64_t insert(uint16_t x1, uint16_t y1, uint16_t x2, uint16_t y2, uint16_t left, uint16_t right)
{
    uint64_t library, plain;

    snprintf(doing, sizeof doing, "insert (%u,%u)-(%u,%u) left %u right %u", x1, y1, x2, y2, left, right);
    library = boundary_map_insert(LIBRARY_TABLES, x1, y1, x2, y2, left, right);
    plain = plain_insert(&map.plain, x1, y1, x2, y2, left, right);
    compare_all(library, plain);
    return plain;
}

uint64_t delete_handle(uint32_t handle)
{
    uint64_t library, plain;

    snprintf(doing, sizeof doing, "delete %lu (slot %lu, generation %lu)", (unsigned long)handle,
             (unsigned long)(handle >> 16), (unsigned long)(handle & 0xffff));
    library = boundary_map_delete(LIBRARY_TABLES, handle);
    plain = plain_delete(&map.plain, handle);
    compare_all(library, plain);
    return plain;
}

/* Memory for one list pair on both sides, the answers holding leftovers. */
static void lend_lists(const uint16_t *points, size_t points_len, size_t answers_len)
{
    uint16_t from = (uint16_t)chance();
    size_t i;
    int k;

    for (k = 0; k < 2; k++) {
        take_back(&lists.points[k]);
        take_back(&lists.answers[k]);
        lend_memory(&lists.points[k], points_len);
        lend_memory(&lists.answers[k], 2 * answers_len);
        if (points_len > 0)
            memcpy(lists.points[k].entries, points, points_len * sizeof *points);
        for (i = 0; i < 2 * answers_len; i++)
            lists.answers[k].entries[i] = (uint16_t)(from + i);
    }
}

static void compare_answers(size_t answers_len)
{
    const struct lent *ours = &lists.answers[0], *theirs = &lists.answers[1];
    uint32_t a, b;
    size_t i;

    for (i = 0; i < answers_len; i++) {
        memcpy(&a, ours->entries + 2 * i, sizeof a);
        memcpy(&b, theirs->entries + 2 * i, sizeof b);
        if (a != b && 2 * i + 1 < lists.points[1].length)
            differ("answer %zu, of (%u,%u): library %lu, plain search %lu", i, lists.points[1].entries[2 * i],
                   lists.points[1].entries[2 * i + 1], (unsigned long)a, (unsigned long)b);
    }
    if (!same_lent(ours, theirs))
        differ("the answer list, or a word beside it");
    if (!same_lent(&lists.points[0], &lists.points[1]))
        differ("the point list, or a word beside it, was written");
}

/* How a label was found, by arithmetic of its own: how far a line passes over a point is -turn / run. */

static int64_t run(const struct plain_line *l)
{
    return l->east.x - l->west.x;
}

static int64_t turn(const struct plain_line *l, int64_t x, int64_t y)
{
    return run(l) * (y - l->west.y) - (l->east.y - l->west.y) * (x - l->west.x);
}

struct seen {
    int below, east_end, fork;           /* some line below; an east end above; two lowest above, with two labels */
    const struct plain_line *lowest;     /* of those above */
};

/* Takes in one line over the point. */
static void see_above(struct seen *seen, const struct plain_line *l, int64_t x, int64_t y)
{
    const struct plain_line *low = seen->lowest;
    int64_t nearer = low == NULL ? 1 : turn(l, x, y) * run(low) - turn(low, x, y) * run(l);

    if (nearer < 0)
        return;
    seen->fork = nearer == 0 && (seen->fork || l->lower != low->lower);
    seen->lowest = l;
}

static struct seen see_lines(int64_t x, int64_t y)
{
    struct seen seen = { 0, 0, 0, NULL };
    size_t i;

    for (i = 0; i < map.plain.count; i++) {
        const struct plain_line *l = &map.plain.list[i];

        if (run(l) == 0 || x < l->west.x || x > l->east.x)
            continue;
        if (x == l->east.x)
            seen.east_end |= l->east.y > y;
        else if (turn(l, x, y) > 0)
            seen.below = 1;
        else
            see_above(&seen, l, x, y);
    }
    return seen;
}

static void count_way(uint16_t x, uint16_t y, uint32_t answer)
{
    struct seen seen = see_lines(2 * (int64_t)x + 1, 2 * (int64_t)y + 1);

    if (seen.below) {
        met.ways[FROM_BELOW]++;
        met.ways[BELOW_IS_0] += answer == 0 && seen.lowest != NULL && seen.lowest->lower != 0;
    } else if (seen.lowest != NULL) {
        met.ways[FROM_ABOVE]++;
        met.ways[UNDER_WEST_END] += seen.lowest->west.x == 2 * (int64_t)x + 1;
        met.ways[UNDER_FORK] += (uint64_t)seen.fork;
    } else {
        met.ways[FROM_NEITHER]++;
        met.ways[UNDER_EAST_END] += (uint64_t)seen.east_end;
    }
}

static void count_answers(size_t answers_len)
{
    const uint16_t *points = lists.points[1].entries;
    uint32_t a;
    size_t i;

    for (i = 0; i < answers_len; i++) {
        memcpy(&a, lists.answers[1].entries + 2 * i, sizeof a);
        if (a < 65536) {
            met.answers[a == 0 ? ANSWER_NONE : ANSWER_LABEL]++;
            count_way(points[2 * i], points[2 * i + 1], a);
        } else {
            met.answers[a == UINT32_MAX ? ANSWER_OFF_GRID : ANSWER_ON_LINE]++;
        }
    }
}

uint64_t locate_lengths(const uint16_t *points, size_t points_len, size_t answers_len)
{
    uint64_t library, plain;

    snprintf(doing, sizeof doing, "locate, %zu point entries, %zu answers", points_len, answers_len);
    lend_lists(points, points_len, answers_len);
    library = boundary_map_locate(LIBRARY_TABLES, lists.points[0].entries, points_len,
                                  (uint32_t *)(void *)lists.answers[0].entries, answers_len);
    plain = plain_locate(&map.plain, lists.points[1].entries, points_len,
                         (uint32_t *)(void *)lists.answers[1].entries, answers_len);
    compare_all(library, plain);
    compare_answers(answers_len);
    if (plain == 0)
        count_answers(answers_len);
    return plain;
}

uint64_t locate(const uint16_t *points, size_t count)
{
    return locate_lengths(points, 2 * count, count);
}

static void lend_slots(size_t slots_len)
{
    uint64_t from = chance();
    size_t i;
    int k;

    for (k = 0; k < 2; k++) {
        take_back(&lists.slots[k]);
        lend_memory(&lists.slots[k], slots_len);
        for (i = 0; i < slots_len; i++)
            lists.slots[k].entries[i] = (uint16_t)(from + 40503 * i);
    }
}

uint64_t window(uint16_t west, uint16_t south, uint16_t east, uint16_t north, size_t slots_len)
{
    uint64_t library, plain;

    snprintf(doing, sizeof doing, "window west %u south %u east %u north %u, a list of %zu", west, south, east, north,
             slots_len);
    lend_slots(slots_len);
    library = boundary_map_window(LIBRARY_TABLES, west, south, east, north, lists.slots[0].entries, slots_len);
    plain = plain_window(&map.plain, west, south, east, north, lists.slots[1].entries, slots_len);
    compare_all(library, plain);
    if (!same_lent(&lists.slots[0], &lists.slots[1]))
        compare_lent("the list of slots", &lists.slots[0], &lists.slots[1]);
    return plain;
}

int window_told(uint16_t slot, size_t count)
{
    size_t i;

    for (i = 0; i < count; i++)
        if (lists.slots[1].entries[i] == slot)
            return 1;
    return 0;
}

/* Parts */

int run_part(const char *name, uint64_t with_seed, void (*part)(void))
{
    part_name = name;
    part_seed = with_seed;
    seed(with_seed);
    snprintf(doing, sizeof doing, "before the first call");
    if (setjmp(out_of_part) != 0) {
        take_all_back();
        return 0;
    }
    part();
    take_all_back();
    return 1;
}
