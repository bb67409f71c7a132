/* The same kernels as plain C, as RFC 6386 writes them (chapters 15 and 18), and the sum by psadbw:
 * `plain NAME COUNT`. */
#include <emmintrin.h>
#include <stdint.h>
#include <stdio.h>
#include <stdlib.h>
#include <string.h>

enum { W = 352, H = 288, EDGE = 80, INNER = 76, INTERIOR = 10, HEV = 1 };
static uint8_t first[3][W * H], copy[3][W * H];

static int c(int x) { return x < -128 ? -128 : x > 127 ? 127 : x; }
static int s(uint8_t x) { return (int)x - 128; }
static uint8_t u(int x) { return (uint8_t)(c(x) + 128); }

static int is_changed(const uint8_t *p, int d, int limit) {
    if (abs(p[-d] - p[0]) * 2 + (abs(p[-2 * d] - p[d]) >> 1) > limit) return 0;
    return abs(p[-4 * d] - p[-3 * d]) <= INTERIOR && abs(p[-3 * d] - p[-2 * d]) <= INTERIOR
        && abs(p[-2 * d] - p[-d]) <= INTERIOR && abs(p[3 * d] - p[2 * d]) <= INTERIOR
        && abs(p[2 * d] - p[d]) <= INTERIOR && abs(p[d] - p[0]) <= INTERIOR;
}
static int is_high(const uint8_t *p, int d) { return abs(p[-2 * d] - p[-d]) > HEV || abs(p[d] - p[0]) > HEV; }

static void inner(uint8_t *p, int d) {
    if (!is_changed(p, d, INNER)) return;
    int high = is_high(p, d), p1 = s(p[-2 * d]), p0 = s(p[-d]), q0 = s(p[0]), q1 = s(p[d]);
    int a = c((high ? c(p1 - q1) : 0) + 3 * (q0 - p0));
    int b = c(a + 3) >> 3;
    a = c(a + 4) >> 3;
    p[0] = u(q0 - a);
    p[-d] = u(p0 + b);
    if (!high) {
        a = (a + 1) >> 1;
        p[d] = u(q1 - a);
        p[-2 * d] = u(p1 + a);
    }
}

static void outer(uint8_t *p, int d) {
    if (!is_changed(p, d, EDGE)) return;
    int p2 = s(p[-3 * d]), p1 = s(p[-2 * d]), p0 = s(p[-d]), q0 = s(p[0]), q1 = s(p[d]), q2 = s(p[2 * d]);
    int w = c(c(p1 - q1) + 3 * (q0 - p0));
    if (is_high(p, d)) {
        int b = c(w + 3) >> 3, a = c(w + 4) >> 3;
        p[0] = u(q0 - a);
        p[-d] = u(p0 + b);
        return;
    }
    int a = c((27 * w + 63) >> 7);
    p[0] = u(q0 - a), p[-d] = u(p0 + a);
    a = c((18 * w + 63) >> 7);
    p[d] = u(q1 - a), p[-2 * d] = u(p1 + a);
    a = c((9 * w + 63) >> 7);
    p[2 * d] = u(q2 - a), p[-3 * d] = u(p2 + a);
}

static void edge(uint8_t *p, int d, int next, int n, void step(uint8_t *, int)) {
    for (int i = 0; i < n; i++) step(p + i * next, d);
}

static void block(uint8_t *plane, int w, int n, int x, int y, int all) {
    uint8_t *p = plane + y * w + x;
    if (x > 0) edge(p, 1, w, n, outer);
    if (all) for (int i = 4; i < n; i += 4) edge(p + i, 1, w, n, inner);
    if (y > 0) edge(p, w, 1, n, outer);
    if (all) for (int i = 4; i < n; i += 4) edge(p + i * w, w, 1, n, inner);
}

static void filter(int all) {
    for (int row = 0; row < H / 16; row++)
        for (int column = 0; column < W / 16; column++) {
            block(copy[0], W, 16, 16 * column, 16 * row, all);
            block(copy[1], W / 2, 8, 8 * column, 8 * row, all);
            block(copy[2], W / 2, 8, 8 * column, 8 * row, all);
        }
}

static const int16_t taps[8][6] = {
    {0, 0, 128, 0, 0, 0}, {0, -6, 123, 12, -1, 0}, {2, -11, 108, 36, -8, 1}, {0, -9, 93, 50, -6, 0},
    {3, -16, 77, 77, -16, 3}, {0, -6, 50, 93, -9, 0}, {1, -8, 36, 108, -11, 2}, {0, -1, 12, 123, -6, 0}};

static void pass(const uint8_t *from, int stride, int d, uint8_t *to, int rows, const int16_t *t) {
    for (int r = 0; r < rows; r++)
        for (int x = 0; x < 16; x++) {
            const uint8_t *p = from + r * stride + x;
            int sum = p[-2 * d] * t[0] + p[-d] * t[1] + p[0] * t[2] + p[d] * t[3] + p[2 * d] * t[4] + p[3 * d] * t[5];
            int z = (sum + 64) >> 7;
            to[16 * r + x] = z < 0 ? 0 : z > 255 ? 255 : z;
        }
}

static void six(const uint8_t *p, uint8_t *to) {
    uint8_t rows[21 * 16];
    pass(p - 2 * W, W, 1, rows, 21, taps[6]);
    pass(rows + 32, 16, 16, to, 16, taps[2]);
}

static uint32_t sad16(const uint8_t *a, const uint8_t *b) {
    __m128i sum = _mm_setzero_si128();
    for (int i = 0; i < 256; i += 16) {
        __m128i from_a = _mm_loadu_si128((const __m128i *)(a + i)), from_b = _mm_loadu_si128((const __m128i *)(b + i));
        sum = _mm_add_epi32(sum, _mm_sad_epu8(from_a, from_b));
    }
    return (uint32_t)(_mm_cvtsi128_si32(sum) + _mm_cvtsi128_si32(_mm_srli_si128(sum, 8)));
}

int main(int n, char **words) {
    uint32_t sum = 0, count = n > 2 ? (uint32_t)atol(words[2]) : 0;
    const char *name = n > 2 ? words[1] : "";
    static uint8_t blocks[2][256], to[256];
    memset(first, 7, sizeof first), memset(blocks[0], 7, 256), memset(blocks[1], 200, 256);
    for (uint32_t i = 0; i < count; i++) {
        if (!strcmp(name, "six")) {
            six(first[0] + 64 * W + i % 300 + 8, to);
            sum += to[i % 256];
        } else if (!strcmp(name, "sums")) {
            sum += sad16(blocks[i % 2], blocks[i / 2 % 2]);
        } else {
            for (int k = 0; k < 3; k++) memcpy(copy[k], first[k], k ? W * H / 4 : W * H);
            if (strcmp(name, "copies")) filter(!strcmp(name, "all"));
            sum += copy[i % 3][i % 1000];
        }
    }
    printf("%u\n", sum);
}
