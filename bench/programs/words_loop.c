/* Finds the tokens of texts and converts the integers among them, in a plain loop: the yardstick of `check`. */
#include <stdint.h>
#include <stdio.h>
#include <stdlib.h>

static int is_blank(unsigned char b) { return b == ' ' || b == '\t' || b == '\r' || b == '\n'; }

int main(int argc, char **argv) {
    uint64_t tokens = 0, sum = 0;
    for (int k = 1; k < argc; k++) {
        FILE *file = fopen(argv[k], "rb");
        if (!file) { perror(argv[k]); return 1; }
        fseek(file, 0, SEEK_END);
        size_t len = (size_t)ftell(file), at = 0;
        rewind(file);
        unsigned char *text = malloc(len + 1);
        if (!text || fread(text, 1, len, file) != len) return 1;
        fclose(file);
        while (at < len) {
            if (is_blank(text[at])) { at++; continue; }
            at += text[at] == '-';
            while (at < len && !is_blank(text[at])) sum = sum * 10 + text[at++] - '0';
            tokens++;
        }
        free(text);
    }
    printf("%lu tokens, sum %lu\n", (unsigned long)tokens, (unsigned long)sum);
    return 0;
}
