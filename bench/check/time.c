// time IMAGE TURNS: how long one check of the image takes, the least and the mean of TURNS, by the wall clock.
#include <stdint.h>
#include <stdio.h>
#include <stdlib.h>
#include <time.h>

uint32_t check_code(const uint8_t *image, size_t image_len, uint32_t *work, size_t work_len);

static double now(void) {
    struct timespec t;
    clock_gettime(CLOCK_MONOTONIC, &t);
    return t.tv_sec + t.tv_nsec * 1e-9;
}

int main(int argc, char **argv) {
    FILE *f = fopen(argv[1], "rb");
    int turns = atoi(argv[2]);
    static uint8_t image[9000 * 1024];
    static uint32_t work[65536];
    size_t n = fread(image, 1, sizeof image, f);
    double least = 1e9, sum = 0;
    uint32_t code = 0;
    for (int k = 0; k < turns; k++) {
        double a = now();
        code = check_code(image, n, work, 65536);
        double t = now() - a;
        sum += t;
        if (t < least) least = t;
    }
    printf("%s: verdict %u (0 sound, 1 to 7 the broken rule), least %.3f ms, mean %.3f ms of %d\n", argv[1], code, least * 1e3, sum / turns * 1e3, turns);
    return 0;
}
