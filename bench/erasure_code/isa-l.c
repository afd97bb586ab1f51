#include <isa-l.h>
#include <stdio.h>
#include <stdlib.h>
#include <string.h>
#include <time.h>

void ec_encode_data_sse(int len, int k, int rows, unsigned char *tables, unsigned char **data, unsigned char **coding);

static double now(void) {
    struct timespec t;
    clock_gettime(CLOCK_MONOTONIC, &t);
    return t.tv_sec * 1e9 + t.tv_nsec;
}

static void symbols(unsigned char **s) {
    for (int i = 0; i < 256; i++) s[i] = aligned_alloc(64, 2048);
}

/* The first e sources are lost and all e parity symbols used: rows over the known sources, an e x e inverse, its rows. */
static void run(int k, int n, int size) {
    int e = n - k;
    unsigned char *m = malloc(n * k), *tables = malloc(32 * k * e), *data[256], *coding[256], *sums[256], *out[256];
    unsigned char *known = malloc(e * k), *lost = malloc(e * e), *inverse = malloc(e * e), *back = malloc(32 * e * e);
    double encode = 1e18, solve = 1e18;
    symbols(data), symbols(coding), symbols(sums), symbols(out);
    for (int i = 0; i < k; i++)
        for (int j = 0; j < size; j++) data[i][j] = (i * 31 + j) % 251;
    gf_gen_cauchy1_matrix(m, n, k);
    for (int x = 0; x < 300; x++) {
        ec_init_tables(k, e, m + k * k, tables);
        double a = now();
        ec_encode_data_sse(size, k, e, tables, data, coding);
        double took = now() - a;
        if (took < encode) encode = took;
    }
    for (int x = 0; x < 100; x++) {
        double a = now();
        for (int i = 0; i < e; i++) {
            memcpy(known + i * (k - e), m + (k + i) * k + e, k - e);
            memcpy(lost + i * e, m + (k + i) * k, e);
        }
        ec_init_tables(k - e, e, known, tables);
        ec_encode_data_sse(size, k - e, e, tables, data + e, sums);
        for (int i = 0; i < e; i++)
            for (int j = 0; j < size; j++) sums[i][j] ^= coding[i][j];
        gf_invert_matrix(lost, inverse, e);
        ec_init_tables(e, e, inverse, back);
        ec_encode_data_sse(size, e, e, back, sums, out);
        double took = now() - a;
        if (took < solve) solve = took;
    }
    for (int i = 0; i < e; i++)
        if (memcmp(out[i], data[i], size)) exit(1);
    printf("isa-l k %d n %d size %d: encode %.0f MB/s, solve %.0f MB/s\n", k, n, size, k * size * 1e3 / encode, k * size * 1e3 / solve);
}

int main(void) {
    run(64, 96, 1024);
    run(200, 255, 1400);
    return 0;
}
