/* Splits load files by plain loops in C: the same bytes as `bp_bench dat` and `bp_bench opt`, as often as told,
   with each value copied into memory of its own. It prints the same checksum, of the first reading.

       load dat ROWS TIMES
       load opt LINES TIMES */
#include <stdint.h>
#include <stdio.h>
#include <stdlib.h>
#include <string.h>

enum { COLUMNS = 64, FIELDS = 7 };

struct value {
    char *bytes;
    size_t len;
};

struct line {
    struct value *values;
    size_t count;
};

struct table {
    struct line *lines;
    size_t count, room;
};

struct opt_line {
    struct value image, volume, path, pages;
    char breaks[3];
};

struct pages {
    struct opt_line *lines;
    size_t count, room;
};

static void *checked(void *memory) {
    if (!memory) exit(3);
    return memory;
}

static size_t more_room(size_t room) { return room ? 2 * room : 4; }

static char *file;
static size_t file_len, file_room;

static void add(const void *bytes, size_t len) {
    while (file_len + len > file_room) file = checked(realloc(file, file_room = 2 * file_room + 64));
    memcpy(file + file_len, bytes, len);
    file_len += len;
}

static void add_dat_value(uint32_t row, uint32_t column) {
    uint32_t place = row * 7 + column;
    add("\xC3\xBE", 2);
    for (uint32_t k = 0; k < 4 + place % 17; k++) add(&"abcdefghijklmnopqrstuvwxyz"[(place + k) % 26], 1);
    if (place % 16 == 0) add("\xC2\xAE\xC3\xA9", 4);
    add("\xC3\xBE", 2);
}

static void make_dat(uint32_t rows) {
    for (uint32_t row = 0; row <= rows; row++) {
        for (uint32_t column = 0; column < COLUMNS; column++) {
            if (column > 0) add("\x14", 1);
            add_dat_value(row, column);
        }
        add("\r\n", 2);
    }
}

static void make_opt(uint32_t lines) {
    char text[128];
    for (uint32_t line = 0; line < lines; line++) {
        int len = snprintf(text, sizeof text, "AB-%07u,VOL001,IMAGES\\%04u\\AB-%07u.tif,%s,,%s,%s\r\n", line, line / 1000,
                           line, line % 4 == 0 ? "Y" : "", line % 1000 == 0 ? "Y" : "", line % 4 == 0 ? "4" : "");
        add(text, (size_t)len);
    }
}

/* Up to a byte, or to the end. */
static const char *until(const char *at, const char *end, char byte) {
    const char *found = memchr(at, byte, (size_t)(end - at));
    return found ? found : end;
}

static struct value copied(const char *at, const char *end) {
    struct value value = {NULL, (size_t)(end - at)};
    if (value.len > 0) {
        value.bytes = checked(malloc(value.len));
        memcpy(value.bytes, at, value.len);
    }
    return value;
}

/* What stands between two quotes, with a newline for each sign of one; without the sign's first byte it is copied
   whole. */
static struct value unquoted(const char *at, const char *end) {
    struct value value = {NULL, 0};
    if (end - at < 4 || memcmp(at, "\xC3\xBE", 2) != 0 || memcmp(end - 2, "\xC3\xBE", 2) != 0) exit(2);
    at += 2;
    end -= 2;
    if (at == end) return value;
    if (!memchr(at, 0xC2, (size_t)(end - at))) return copied(at, end);
    value.bytes = checked(malloc((size_t)(end - at)));
    while (at < end) {
        if (end - at > 1 && at[0] == '\xC2' && at[1] == '\xAE') {
            value.bytes[value.len++] = '\n';
            at += 2;
        } else {
            value.bytes[value.len++] = *at++;
        }
    }
    return value;
}

static struct line dat_line(const char *at, const char *end) {
    struct line line = {NULL, 0};
    size_t room = 0;
    for (;;) {
        const char *stop = until(at, end, 0x14);
        if (line.count == room)
            line.values = checked(realloc(line.values, (room = more_room(room)) * sizeof *line.values));
        line.values[line.count++] = unquoted(at, stop);
        if (stop == end) return line;
        at = stop + 1;
    }
}

static struct table read_dat(void) {
    struct table table = {NULL, 0, 0};
    const char *at = file, *end = file + file_len;
    while (at < end) {
        const char *stop = until(at, end, '\n');
        if (table.count == table.room)
            table.lines = checked(realloc(table.lines, (table.room = more_room(table.room)) * sizeof *table.lines));
        table.lines[table.count++] = dat_line(at, stop > at && stop[-1] == '\r' ? stop - 1 : stop);
        at = stop + 1;
    }
    return table;
}

static struct opt_line opt_line(const char *at, const char *end) {
    const char *starts[FIELDS], *stops[FIELDS];
    for (int k = 0; k < FIELDS; k++) {
        starts[k] = at;
        stops[k] = until(at, end, ',');
        at = stops[k] < end ? stops[k] + 1 : end;
    }
    struct opt_line line = {copied(starts[0], stops[0]), copied(starts[1], stops[1]), copied(starts[2], stops[2]),
                            copied(starts[6], stops[6]), {0, 0, 0}};
    for (int k = 0; k < 3; k++) line.breaks[k] = stops[3 + k] - starts[3 + k] == 1 && *starts[3 + k] == 'Y';
    return line;
}

static struct pages read_opt(void) {
    struct pages pages = {NULL, 0, 0};
    const char *at = file, *end = file + file_len;
    while (at < end) {
        const char *stop = until(at, end, '\n');
        if (pages.count == pages.room)
            pages.lines = checked(realloc(pages.lines, (pages.room = more_room(pages.room)) * sizeof *pages.lines));
        pages.lines[pages.count++] = opt_line(at, stop > at && stop[-1] == '\r' ? stop - 1 : stop);
        at = stop + 1;
    }
    return pages;
}

static uint64_t with_value(uint64_t sum, struct value value) {
    for (size_t k = 0; k < value.len; k++) sum = sum * 31 + (uint8_t)value.bytes[k];
    return sum * 31 + 256;
}

static uint64_t sum_of_dat(struct table table) {
    uint64_t sum = 0;
    for (size_t row = 0; row < table.count; row++)
        for (size_t k = 0; k < table.lines[row].count; k++) sum = with_value(sum, table.lines[row].values[k]);
    return sum;
}

static uint64_t sum_of_opt(struct pages pages) {
    uint64_t sum = 0;
    for (size_t k = 0; k < pages.count; k++) {
        struct opt_line line = pages.lines[k];
        sum = with_value(with_value(with_value(with_value(sum, line.image), line.volume), line.path), line.pages);
        sum += (uint64_t)(line.breaks[0] + 2 * line.breaks[1] + 4 * line.breaks[2]);
    }
    return sum;
}

static void free_dat(struct table table) {
    for (size_t row = 0; row < table.count; row++) {
        for (size_t k = 0; k < table.lines[row].count; k++) free(table.lines[row].values[k].bytes);
        free(table.lines[row].values);
    }
    free(table.lines);
}

static void free_opt(struct pages pages) {
    for (size_t k = 0; k < pages.count; k++) {
        free(pages.lines[k].image.bytes);
        free(pages.lines[k].volume.bytes);
        free(pages.lines[k].path.bytes);
        free(pages.lines[k].pages.bytes);
    }
    free(pages.lines);
}

static uint64_t run_dat(uint32_t rows, long times) {
    uint64_t sum = 0;
    make_dat(rows);
    for (long turn = 0; turn < times; turn++) {
        struct table table = read_dat();
        if (turn == 0) sum = sum_of_dat(table);
        free_dat(table);
    }
    return sum;
}

static uint64_t run_opt(uint32_t lines, long times) {
    uint64_t sum = 0;
    make_opt(lines);
    for (long turn = 0; turn < times; turn++) {
        struct pages pages = read_opt();
        if (turn == 0) sum = sum_of_opt(pages);
        free_opt(pages);
    }
    return sum;
}

int main(int count, char **words) {
    if (count != 4) return 1;
    uint32_t size = (uint32_t)atol(words[2]);
    long times = atol(words[3]);
    uint64_t sum = strcmp(words[1], "dat") == 0 ? run_dat(size, times) : run_opt(size, times);
    printf("%llu\n", (unsigned long long)sum);
    return 0;
}
