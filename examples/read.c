/* Reads a curve's text at parameters, by the library: read CURVE WORD.. writes the point at each, a line of three words.
 * The degree is the first knot's multiplicity less 1; a text from which a line is missing does not fit it, and is refused with 6. */
#include <inttypes.h>
#include <stdio.h>
#include <stdlib.h>
#include <string.h>

#include "nigorzai.h"

#define KNOTS 1050
#define POLES 1024
#define WORD "%16[0-9a-f]"

struct curve {
    double knots[KNOTS], poles[3 * POLES];
    uint32_t mults[KNOTS];
    size_t knot_count, pole_places;
};

/* Whether the text is a word, 16 hexadecimal digits, and its double. */
static int word(const char *text, double *x) {
    if (strlen(text) != 16 || strspn(text, "0123456789abcdef") != 16) return 0;
    uint64_t bits = strtoull(text, NULL, 16);
    memcpy(x, &bits, sizeof bits);
    return 1;
}

static void print_word(double x, char after) {
    uint64_t bits;
    memcpy(&bits, &x, sizeof bits);
    printf("%016" PRIx64 "%c", bits, after);
}

/* The next line without its newline; an empty text at the end of the file. */
static const char *next_line(FILE *file) {
    static char text[100];
    if (fgets(text, sizeof text, file) == NULL) return "";
    text[strcspn(text, "\n")] = '\0';
    return text;
}

/* Whether the line is a knot's, which then is the curve's next. */
static int take_knot(const char *text, struct curve *c) {
    char knot[17], count[10];
    int end = 0;
    if (c->knot_count == KNOTS || sscanf(text, WORD " %9[0-9]%n", knot, count, &end) != 2 || text[end] != '\0') return 0;
    c->mults[c->knot_count] = (uint32_t)strtoul(count, NULL, 10);
    return word(knot, &c->knots[c->knot_count++]);
}

/* Whether the line is a pole's, which then is the curve's next. */
static int take_pole(const char *text, struct curve *c) {
    char words[3][17];
    int end = 0;
    if (c->pole_places == 3 * POLES || sscanf(text, WORD " " WORD " " WORD "%n", words[0], words[1], words[2], &end) != 3 || text[end] != '\0') return 0;
    for (int i = 0; i < 3; i++)
        if (!word(words[i], &c->poles[c->pole_places++])) return 0;
    return 1;
}

/* Whether the file is a curve's text. */
static int taken(FILE *file, struct curve *c) {
    const char *text;
    if (strcmp(next_line(file), "mark largest unreadable") != 0) return 0;
    next_line(file);
    if (strcmp(next_line(file), "knot multiplicity") != 0) return 0;
    while (text = next_line(file), take_knot(text, c)) continue;
    if (c->knot_count == 0 || c->mults[0] == 0 || strcmp(text, "x y z") != 0) return 0;
    while (text = next_line(file), take_pole(text, c)) continue;
    return text[0] == '\0';
}

int main(int count, char **words) {
    static struct curve c;
    double u, point[3];
    FILE *file = count > 1 ? fopen(words[1], "r") : NULL;
    if (file == NULL || !taken(file, &c)) {
        fprintf(stderr, "read CURVE WORD..: a curve's text, as the card program writes it, and parameters of 16 hexadecimal digits each\n");
        return 2;
    }
    for (int k = 2; k < count; k++) {
        if (!word(words[k], &u)) {
            fprintf(stderr, "%s: no word of 16 hexadecimal digits\n", words[k]);
            return 2;
        }
        uint32_t refusal = nigorzai_read(c.poles, c.pole_places, c.mults[0] - 1, c.knots, c.knot_count, c.mults, c.knot_count, u, point, 3);
        if (refusal != 0) {
            printf("refused\n%" PRIu32 "\n", refusal);
            return 1;
        }
        for (int i = 0; i < 3; i++) print_word(point[i], i < 2 ? ' ' : '\n');
    }
    return 0;
}
