/* The kernels, their tables and the loop over lanes that the programs in C share: random numbers, the kernel set that they
 * give, the tables of its blocks, and what a rectangle adds to the lanes of a pixel. The including file says REACH and
 * KERNELS first.
 */
#include <stdint.h>
#include <stddef.h>

enum { LANES = 2 * KERNELS, WIDTH = 2 * REACH + 2, PLACES = 2 * REACH + 1 };

typedef int64_t eight __attribute__((vector_size(64), aligned(8)));

static uint32_t state = 1;

static int16_t entries[KERNELS][PLACES][PLACES][2], covered[2], uncovered[2];
static int64_t table[WIDTH][WIDTH][LANES];
static int64_t ground[LANES];

/* As in the proved program, these are known when it runs, and not when it is compiled. */
static volatile int set_reach = REACH, set_lanes = LANES;
static int reach, lane_count;

static int next_number(int least, int count)
{
    state = state * 1664525u + 1013904223u;
    return least + (int)(state >> 16) % count;
}

static void read_entry(int16_t *entry, int most)
{
    entry[0] = (int16_t)next_number(-most, 2 * most + 1);
    entry[1] = (int16_t)next_number(-most, 2 * most + 1);
}

static int64_t product(const int16_t *a, const int16_t *b, int lane)
{
    return lane % 2 == 0 ? (int64_t)a[0] * b[0] - (int64_t)a[1] * b[1] : (int64_t)a[0] * b[1] + (int64_t)a[1] * b[0];
}

static void read_set(void)
{
    for (int kernel = 0; kernel < KERNELS; kernel++) {
        for (int row = 0; row < PLACES; row++)
            for (int column = 0; column < PLACES; column++)
                read_entry(entries[kernel][row][column], 128);
        next_number(1, 9);
    }
    read_entry(covered, 8);
    read_entry(uncovered, 8);
}

static void build_tables(void)
{
    int16_t contrast[2] = {covered[0] - uncovered[0], covered[1] - uncovered[1]};
    for (int row = 1; row < WIDTH; row++)
        for (int column = 1; column < WIDTH; column++)
            for (int lane = 0; lane < LANES; lane++) {
                const int16_t *entry = entries[lane / 2][row - 1][column - 1];
                ground[lane] += product(entry, uncovered, lane);
                table[row][column][lane] = table[row][column - 1][lane] + table[row - 1][column][lane]
                    - table[row - 1][column - 1][lane] + product(entry, contrast, lane);
            }
}

static int clamped(int d)
{
    int low = d < -reach - 1 ? -reach - 1 : d;
    return (low > reach ? reach : low) + reach + 1;
}

static const int64_t *block(int dx, int dy)
{
    size_t width = 2 * (size_t)reach + 2;
    return &table[0][0][0] + ((size_t)clamped(dy) * width + (size_t)clamped(dx)) * (size_t)lane_count;
}

static void add_rect(int64_t *lanes, int x, int y, int x0, int y0, int x1, int y1)
{
    const int64_t *a = block(x - x0, y - y0), *b = block(x - x1, y - y0), *c = block(x - x0, y - y1), *d = block(x - x1, y - y1);
    int lane = 0;
    for (; lane + 8 <= lane_count; lane += 8)
        *(eight *)(lanes + lane) += *(const eight *)(a + lane) - *(const eight *)(b + lane) - *(const eight *)(c + lane)
            + *(const eight *)(d + lane);
    for (; lane < lane_count; lane++)
        lanes[lane] += a[lane] - b[lane] - c[lane] + d[lane];
}
