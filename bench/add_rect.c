/* The loop of crates/bench_sums written by hand in C: adds rectangles to the lanes of a pixel, as many as the first word
 * says, and prints the same number. 16 kernels of reach 64 under two transmissions, and rectangles with sides of up to
 * 100 pixels round the pixel, all from the same numbers. With the word `set` it makes the kernels alone, and prints the
 * real part of their last entry.
 */
#include <stdio.h>
#include <stdlib.h>
#include <string.h>

enum { REACH = 64, KERNELS = 16 };

#include "lanes.h"

int main(int argc, char **argv)
{
    uint32_t count = argc > 1 ? (uint32_t)strtoul(argv[1], NULL, 10) : 1000;
    int64_t lanes[LANES];
    uint64_t sum = 0;
    reach = set_reach;
    lane_count = set_lanes;
    read_set();
    if (argc > 1 && strcmp(argv[1], "set") == 0) {
        printf("%d\n", entries[KERNELS - 1][PLACES - 1][PLACES - 1][0]);
        return 0;
    }
    build_tables();
    for (uint32_t turn = 0; turn < count; turn++) {
        int x0 = next_number(-100, 201), x1 = x0 + next_number(1, 100);
        int y0 = next_number(-100, 201), y1 = y0 + next_number(1, 100);
        memcpy(lanes, ground, sizeof lanes);
        add_rect(lanes, 0, 0, x0, y0, x1, y1);
        sum += (uint64_t)lanes[turn % LANES];
    }
    printf("%lld\n", (long long)sum);
    return 0;
}
