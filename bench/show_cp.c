/* The same job as `fold_program show --from=cp`, in plain C: reads the whole
   text, checks every line, keeps the lines, and prints them with single
   spaces. It is the rival that the benchmark measures against, and nothing
   else: no part of the program is built from it. */
#include <stdio.h>
#include <stdlib.h>
#include <string.h>

enum { LIMIT = 16777216 };

struct number { char *text; size_t length; };
struct line { char kind; struct number part[4]; };
struct lines { struct line *item; size_t count, room; };

static char *read_all(size_t *length) {
    size_t room = 1 << 16;
    char *text = malloc(room);
    *length = 0;
    while (text) {
        size_t got = fread(text + *length, 1, room - *length, stdin);
        *length += got;
        if (got == 0) break;
        if (*length == room) text = realloc(text, room *= 2);
    }
    return text;
}

static const char *skip_blanks(const char *at, const char *end) {
    while (at < end && (*at == ' ' || *at == '\t')) at++;
    return at;
}

/* An optional minus, then 0, or a digit 1 to 9 and digits. NULL: no number. */
static const char *skip_number(const char *at, const char *end) {
    if (at < end && *at == '-') at++;
    if (at == end || *at < '0' || *at > '9') return NULL;
    if (*at == '0') return at + 1;
    while (at < end && *at >= '0' && *at <= '9') at++;
    return at;
}

/* The same memory as the program keeps: each number as a text of its own. */
static int keep(struct number *number, const char *from, const char *to) {
    number->length = (size_t)(to - from);
    number->text = malloc(number->length);
    if (!number->text) return 0;
    memcpy(number->text, from, number->length);
    return 1;
}

static int read_line(const char *at, const char *end, struct lines *lines) {
    at = skip_blanks(at, end);
    if (at == end) return 1;
    struct line line;
    if (*at < '0' || *at > '4') return 0;
    line.kind = *at++;
    for (int i = 0; i < 4; i++) {
        const char *from = skip_blanks(at, end);
        if (from == at) return 0;
        at = skip_number(from, end);
        if (!at || !keep(&line.part[i], from, at)) return 0;
    }
    if (skip_blanks(at, end) != end) return 0;
    if (lines->count == lines->room) {
        lines->room = lines->room ? 2 * lines->room : 64;
        lines->item = realloc(lines->item, lines->room * sizeof line);
        if (!lines->item) return 0;
    }
    lines->item[lines->count++] = line;
    return 1;
}

static char *print_line(char *out, const struct line *line) {
    *out++ = line->kind;
    for (int i = 0; i < 4; i++) {
        *out++ = ' ';
        memcpy(out, line->part[i].text, line->part[i].length);
        out += line->part[i].length;
    }
    *out++ = '\n';
    return out;
}

int main(void) {
    size_t length;
    char *text = read_all(&length);
    if (!text) return 10;
    if (length > LIMIT) return 9;
    struct lines lines = {0};
    const char *at = text, *end = text + length;
    while (at < end) {
        const char *feed = memchr(at, '\n', (size_t)(end - at));
        const char *stop = feed ? feed : end;
        const char *last = feed && stop > at && stop[-1] == '\r' ? stop - 1 : stop;
        if (!read_line(at, last, &lines)) return 2;
        at = feed ? feed + 1 : end;
    }
    char *out = malloc(length + 2), *to = out;
    if (!out) return 10;
    for (size_t i = 0; i < lines.count; i++) to = print_line(to, &lines.item[i]);
    fwrite(out, 1, (size_t)(to - out), stdout);
    return 0;
}
