/* Finds and converts the tokens of a formula in a plain loop: the yardstick of the reader.
 *
 * It does what any reader must: it drops comment lines, stops at a `%` line, finds each token, converts it, tests the
 * limit, keeps the literals, and counts the constraints. It checks no grammar beyond that. */
#include <stdint.h>
#include <stdio.h>
#include <stdlib.h>
#include <time.h>

#define MAX_VARIABLE 268435455u

static double seconds(void) {
    struct timespec now;
    clock_gettime(CLOCK_MONOTONIC, &now);
    return now.tv_sec + now.tv_nsec * 1e-9;
}

static unsigned char *read_file(const char *name, size_t *len) {
    FILE *file = fopen(name, "rb");
    if (!file) { perror(name); exit(1); }
    fseek(file, 0, SEEK_END);
    *len = (size_t)ftell(file);
    rewind(file);
    unsigned char *text = malloc(*len + 1);
    if (!text || fread(text, 1, *len, file) != *len) exit(1);
    fclose(file);
    return text;
}

static int is_blank(unsigned char b) { return b == ' ' || b == '\t' || b == '\r' || b == '\n'; }

struct counts { size_t literals, constraints, parities, sum; };

static struct counts read_tokens(const unsigned char *text, size_t len, int keep) {
    struct counts c = {0, 0, 0, 0};
    size_t at = 0, room = 0, used = 0, tokens = 0;
    uint32_t *lits = NULL;
    int line_start = 1;
    while (at < len) {
        unsigned char b = text[at];
        if (is_blank(b)) { if (b == '\n') line_start = 1; at++; continue; }
        if (line_start && b == 'c') { while (at < len && text[at] != '\n') at++; continue; }
        if (line_start && b == '%') break;
        line_start = 0;
        if (tokens < 4) { /* the header */
            while (at < len && !is_blank(text[at])) at++;
            tokens++;
            continue;
        }
        if (b == 'x') { c.parities++; at++; if (at == len || is_blank(text[at])) continue; }
        uint32_t negative = text[at] == '-';
        at += negative;
        uint32_t value = 0;
        while (at < len && text[at] >= '0' && text[at] <= '9') {
            value = value * 10 + (text[at] - '0');
            if (value > MAX_VARIABLE) { fprintf(stderr, "limit at %zu\n", at); exit(1); }
            at++;
        }
        if (at < len && !is_blank(text[at])) { fprintf(stderr, "bad token at %zu\n", at); exit(1); }
        if (value == 0) { c.constraints++; continue; }
        c.literals++;
        c.sum += value;
        if (keep) {
            if (used == room) {
                room = room ? 2 * room : 1024;
                lits = realloc(lits, room * sizeof *lits);
                if (!lits) exit(1);
            }
            lits[used++] = 2 * value + negative;
        }
    }
    if (used) c.sum += lits[used - 1];
    free(lits);
    return c;
}

int main(int argc, char **argv) {
    if (argc < 2) { fprintf(stderr, "usage: reader_loop FILE [keep]\n"); return 2; }
    size_t len;
    unsigned char *text = read_file(argv[1], &len);
    double start = seconds();
    struct counts c = read_tokens(text, len, argc > 2);
    double took = seconds() - start;
    printf("%zu bytes, %zu literals, %zu constraints, %zu parities, sum %zu: %.1f ms\n", len, c.literals, c.constraints, c.parities, c.sum, took * 1e3);
    return 0;
}
