/* Times state::whole, warm, on four whole states of the card of case 1 (size 64, ninodes 16, nlog 30), and checks that each is accepted
   and that a home that comes twice is not. See README.md. */
#include <stdint.h>
#include <stdio.h>
#include <string.h>
#include <time.h>

typedef uint32_t u32;
typedef struct { u32 size, nblocks, ninodes, nlog, inodestart, bmapstart; } Super;
typedef struct { u32 blocks[30], counts[30], order[30]; } Table;
typedef struct { u32 inums[50], refs[50]; } Slots;
typedef struct { Super sb; Table table; u32 homes[30]; u32 recorded, ops; Slots slots; u32 live; } Volume;

extern u32 whole_timed(Volume v, const uint8_t *image, size_t len);

static uint8_t image[64 * 1024];

static void number(size_t at, u32 x) { memcpy(image + at, &x, 4); }

static Volume state(int filled, int recorded, int handles) {
    Volume v;
    memset(&v, 0, sizeof v);
    v.sb = (Super){64, 29, 16, 30, 32, 34};
    for (int j = 0; j < 30; j++) {
        v.table.blocks[j] = j < filled ? 32 + j : 4294967295u;
        v.table.order[j] = j;
    }
    for (int i = 0; i < recorded; i++) {
        v.homes[i] = 32 + i;
        v.table.counts[i] = 1;
    }
    v.recorded = recorded;
    v.ops = recorded ? 1 : 0;
    for (int k = 0; k < handles; k++) { v.slots.inums[k] = k + 1; v.slots.refs[k] = 1; }
    v.live = 1;
    return v;
}

static double now(void) {
    struct timespec t;
    clock_gettime(CLOCK_MONOTONIC, &t);
    return t.tv_sec * 1e9 + t.tv_nsec;
}

static void time_it(const char *what, Volume v) {
    enum { N = 10000, RUNS = 400 };
    double best = 1e18;
    u32 yes = 0;
    for (int run = 0; run < RUNS; run++) {
        double t = now();
        for (int i = 0; i < N; i++) {
            yes += whole_timed(v, image, sizeof image);
            __asm__ volatile("" ::: "memory");
        }
        t = (now() - t) / N;
        if (t < best) best = t;
    }
    printf("%-48s %6.1f ns a call%s\n", what, best, yes == (u32)RUNS * N ? "" : "  NOT WHOLE");
}

int main(void) {
    number(1024, 0x10203040); number(1028, 64); number(1032, 29); number(1036, 16);
    number(1040, 30); number(1044, 2); number(1048, 32); number(1052, 34);
    time_it("fresh: no buffer filled, nothing recorded", state(0, 0, 0));
    time_it("4 recorded, 4 buffers filled, 1 handle", state(4, 4, 1));
    time_it("10 recorded, 30 buffers filled, 4 handles", state(30, 10, 4));
    time_it("28 recorded, 30 buffers filled, 15 handles", state(30, 28, 15));
    Volume twice = state(30, 10, 4);
    twice.homes[9] = twice.homes[0];
    printf("a home twice: %s\n", whole_timed(twice, image, sizeof image) ? "ACCEPTED" : "refused");
    return 0;
}
