// Calls normal_form on the book and the term in a file some times, and prints the seconds of each call and the result.
// The file has, as 32-bit words: the number of the book's words, these, the number of the term's words, and these.
#include <stdint.h>
#include <stdio.h>
#include <stdlib.h>
#include <time.h>

struct outcome {
    uint32_t code;
    size_t number;
};

struct outcome normal_form(const uint32_t *book, size_t book_len, const uint32_t *term, size_t term_len, uint32_t *work,
                           size_t work_len, uint32_t *out, size_t out_len);

static uint32_t *words(FILE *file, size_t *len) {
    uint32_t n;
    if (fread(&n, 4, 1, file) != 1) exit(2);
    uint32_t *ws = malloc(4 * (size_t)n + 4);
    if (ws == NULL || fread(ws, 4, n, file) != n) exit(2);
    *len = n;
    return ws;
}

static double seconds(void) {
    struct timespec t;
    clock_gettime(CLOCK_PROCESS_CPUTIME_ID, &t);
    return t.tv_sec + t.tv_nsec / 1e9;
}

int main(int argc, char **argv) {
    if (argc != 4) return 2;
    FILE *file = fopen(argv[1], "rb");
    if (file == NULL) return 2;
    int runs = atoi(argv[2]);
    size_t work_len = strtoull(argv[3], NULL, 10), book_len, term_len, out_len = 1 << 24;
    uint32_t *book = words(file, &book_len), *term = words(file, &term_len);
    uint32_t *work = malloc(4 * work_len), *out = malloc(4 * out_len);
    if (work == NULL || out == NULL) return 2;
    struct outcome o = {0, 0};
    for (int i = 0; i < runs; i++) {
        double start = seconds();
        o = normal_form(book, book_len, term, term_len, work, work_len, out, out_len);
        printf("%.6f\n", seconds() - start);
    }
    printf("code %u\nwords", o.code);
    if (o.code == 0)
        for (size_t i = 0; i < o.number; i++) printf(" %u", out[i]);
    else
        printf(" %zu", o.number);
    printf("\n");
    return 0;
}
