/* The loops of the parallel phase written by hand in C, for one worker: adds what each fragment of crates/bench_parallel
 * sweeps to the sums of all fragments, tile by tile, and prints the same number. The first word is a number of workers,
 * where 0 adds nothing and any other is one worker, and the second a count of squares. 8 kernels of reach 40 under two
 * transmissions, 8 samples to a side, tiles of 64 pixels.
 */
#include <stdio.h>
#include <stdlib.h>

enum { REACH = 40, KERNELS = 8 };

#include "lanes.h"

enum { SAMPLES = 8, SIDE = 64, HALO = REACH + SAMPLES, COLUMNS = 128, ROWS = 64, MOST = 4 * COLUMNS * ROWS };

enum side { LEFT, RIGHT, DOWN, UP };
struct rect { int x0, y0, x1, y1; };
struct pix { int x, y; };
struct fragment { enum side side; int edge, lo, hi; };
struct key { int b, a; uint32_t number; };

static struct fragment fragments[MOST];
static struct rect moves[MOST];
static struct key keys[MOST];
static uint32_t count, tiles, numbers[MOST], firsts[MOST + 1];
static struct key squares[MOST];

static volatile int set_samples = SAMPLES, set_side = SIDE, set_halo = HALO;
static int samples, side, halo;

/* An edge of the square of this column and row, and what it sweeps where it moves outward by one pixel. */
static void add_edge(enum side at, int column, int row)
{
    int x = 30 * column, y = 30 * row;
    struct fragment f = { at, 0, 0, 0 };
    struct rect r = { x, y, x + 10, y + 10 };
    if (at == LEFT || at == RIGHT) {
        f.edge = at == LEFT ? x : x + 10, f.lo = y, f.hi = y + 10;
        r.x0 = at == LEFT ? x - 1 : x + 10, r.x1 = r.x0 + 1;
    } else {
        f.edge = at == DOWN ? y : y + 10, f.lo = x, f.hi = x + 10;
        r.y0 = at == DOWN ? y - 1 : y + 10, r.y1 = r.y0 + 1;
    }
    fragments[count] = f;
    moves[count++] = r;
}

/* Vertical edges by their lines from the left, then horizontal ones by theirs from below. */
static void build_layout(int squares_wanted)
{
    for (int column = 0; column < COLUMNS; column++)
        for (int at = LEFT; at <= RIGHT; at++)
            for (int row = 0; row * COLUMNS + column < squares_wanted; row++)
                add_edge((enum side)at, column, row);
    for (int row = 0; row < ROWS; row++)
        for (int at = DOWN; at <= UP; at++)
            for (int column = 0; column < COLUMNS && row * COLUMNS + column < squares_wanted; column++)
                add_edge((enum side)at, column, row);
}

static struct pix site(uint32_t number, int t)
{
    const struct fragment *f = &fragments[number];
    int middle = f->lo + (f->hi - f->lo) / 2;
    int across = f->side == LEFT || f->side == DOWN ? f->edge - 1 - t : f->edge + t;
    return f->side == LEFT || f->side == RIGHT ? (struct pix){ across, middle } : (struct pix){ middle, across };
}

static int floor_div(int a, int b)
{
    return a / b - (a % b < 0);
}

static int by_tile(const void *one, const void *other)
{
    const struct key *s = one, *t = other;
    if (s->b != t->b)
        return s->b < t->b ? -1 : 1;
    if (s->a != t->a)
        return s->a < t->a ? -1 : 1;
    return s->number < t->number ? -1 : s->number > t->number;
}

static void build_tiles(void)
{
    for (uint32_t i = 0; i < count; i++) {
        struct pix p = site(i, -1);
        keys[i] = (struct key){ floor_div(p.y, side), floor_div(p.x, side), i };
    }
    qsort(keys, count, sizeof keys[0], by_tile);
    for (uint32_t place = 0; place < count; place++) {
        numbers[place] = keys[place].number;
        if (place == 0 || keys[place].a != keys[place - 1].a || keys[place].b != keys[place - 1].b) {
            squares[tiles] = keys[place];
            firsts[tiles++] = place;
        }
    }
    firsts[tiles] = count;
}

static int overlap(int a, int b, int c, int d)
{
    return (a > c ? a : c) < (b < d ? b : d);
}

static int meet(const struct rect *r, const struct rect *s)
{
    return overlap(r->x0, r->x1, s->x0, s->x1) && overlap(r->y0, r->y1, s->y0, s->y1);
}

static int sees(int far, struct pix at, const struct rect *r)
{
    struct rect window = { at.x - far, at.y - far, at.x + far + 1, at.y + far + 1 };
    return meet(&window, r);
}

static int sample_sees(uint32_t number, int sample, const struct rect *r)
{
    return sees(reach, site(number, sample - samples), r);
}

/* From the first sample that sees the rectangle up to the last that does. */
static void add_to_fragment(int64_t *sums, uint32_t number, const struct rect *r)
{
    int first = 0, end = 2 * samples;
    while (first < end && !sample_sees(number, first, r))
        first++;
    while (end > first && !sample_sees(number, end - 1, r))
        end--;
    for (int sample = first; sample < end; sample++) {
        struct pix at = site(number, sample - samples);
        add_rect(sums + (size_t)sample * (size_t)lane_count, at.x, at.y, r->x0, r->y0, r->x1, r->y1);
    }
}

/* Whether some sample of the fragment may see the rectangle. */
static int is_near(uint32_t number, const struct rect *r)
{
    return sees(reach + samples, site(number, -1), r);
}

static void add_to_tile(int64_t *sums, uint32_t tile, const struct rect *r)
{
    size_t stride = 2 * (size_t)samples * (size_t)lane_count;
    for (uint32_t place = firsts[tile]; place < firsts[tile + 1]; place++)
        if (is_near(numbers[place], r))
            add_to_fragment(sums + place * stride, numbers[place], r);
}

/* The first tile in this row or above it. */
static uint32_t first_from_row(int row)
{
    uint32_t low = 0, high = tiles;
    while (low < high) {
        uint32_t middle = low + (high - low) / 2;
        if (squares[middle].b < row)
            low = middle + 1;
        else
            high = middle;
    }
    return low;
}

static void add_to_tiles(int64_t *sums, const struct rect *r)
{
    uint32_t low = first_from_row(floor_div(r->y0 - halo, side));
    uint32_t high = first_from_row(floor_div(r->y1 + halo - 1, side) + 1);
    for (uint32_t tile = low; tile < high; tile++) {
        int x = squares[tile].a * side, y = squares[tile].b * side;
        struct rect grown = { x - halo, y - halo, x + side + halo, y + side + halo };
        if (meet(&grown, r))
            add_to_tile(sums, tile, r);
    }
}

int main(int argc, char **argv)
{
    int workers = argc > 1 ? atoi(argv[1]) : 1, wanted = argc > 2 ? atoi(argv[2]) : COLUMNS * ROWS;
    uint64_t sum = 0;
    reach = set_reach, lane_count = set_lanes, samples = set_samples, side = set_side, halo = set_halo;
    read_set();
    build_tables();
    build_layout(wanted < COLUMNS * ROWS ? wanted : COLUMNS * ROWS);
    build_tiles();
    size_t size = 2 * (size_t)samples * (size_t)lane_count * count;
    int64_t *sums = calloc(size ? size : 1, sizeof *sums);
    if (!sums)
        return 1;
    for (uint32_t i = 0; workers > 0 && i < count; i++)
        add_to_tiles(sums, &moves[i]);
    for (size_t i = 0; i < size; i++)
        sum += (uint64_t)sums[i] * (uint64_t)sums[i];
    printf("%lld\n", (long long)sum);
    free(sums);
    return 0;
}
