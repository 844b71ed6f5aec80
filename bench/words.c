/* Reads a file of words by a plain loop in C: the same bytes as `bp_bench words`, as often as told. It prints the same checksum, of
   the first reading.

       words words ROWS TIMES */
#include <inttypes.h>
#include <stdint.h>
#include <stdio.h>
#include <stdlib.h>
#include <string.h>

struct text {
    char *bytes;
    size_t len;
};

struct word {
    struct text image, text;
    uint32_t line, left, top, width, height;
};

static void *checked(void *memory) {
    if (!memory) exit(3);
    return memory;
}

static struct text copied(const char *bytes, size_t len) {
    struct text text = {checked(malloc(len + 1)), len};
    memcpy(text.bytes, bytes, len);
    return text;
}

static uint64_t with_text(uint64_t sum, const char *bytes, size_t len) {
    for (size_t k = 0; k < len; k++) sum = sum * 31 + (unsigned char)bytes[k];
    return sum * 31 + 256;
}

static char *file;
static size_t file_len;

static void write_file(uint32_t rows) {
    file = checked(malloc((size_t)rows * 64 + 64));
    for (uint32_t row = 0; row < rows; row++) {
        uint32_t line = row / 10 % 50;
        file_len += sprintf(file + file_len, "AB-%07u,%u,%u,%u,150,30,word%u\r\n", row / 500, line, row % 10 * 200, line * 60, row);
    }
}

static uint32_t number(const char *from, const char *to) {
    uint32_t n = 0;
    if (from == to || to - from > 9) exit(4);
    for (; from < to; from++) {
        if (*from < '0' || *from > '9') exit(4);
        n = n * 10 + (uint32_t)(*from - '0');
    }
    return n;
}

static struct word *read_words(size_t *count) {
    struct word *words = NULL;
    size_t room = 0;
    *count = 0;
    for (const char *at = file, *end = file + file_len; at < end;) {
        const char *fields[8];
        size_t field = 0;
        fields[field++] = at;
        while (at < end && *at != '\r' && *at != '\n') {
            if (*at == ',') {
                if (field == 7) exit(4);
                fields[field++] = at + 1;
            }
            at++;
        }
        if (field != 7) exit(4);
        for (const char *c = fields[6]; c < at; c++)
            if ((unsigned char)*c < 32 || *c == 127) exit(4);
        if (*count == room) words = checked(realloc(words, (room = room ? 2 * room : 4) * sizeof *words));
        struct word *word = &words[(*count)++];
        word->image = copied(fields[0], (size_t)(fields[1] - fields[0] - 1));
        word->line = number(fields[1], fields[2] - 1);
        word->left = number(fields[2], fields[3] - 1);
        word->top = number(fields[3], fields[4] - 1);
        word->width = number(fields[4], fields[5] - 1);
        word->height = number(fields[5], fields[6] - 1);
        word->text = copied(fields[6], (size_t)(at - fields[6]));
        while (at < end && (*at == '\r' || *at == '\n')) at++;
    }
    return words;
}

static uint64_t words_job(uint32_t rows, uint32_t times) {
    uint64_t sum = 0;
    write_file(rows);
    for (uint32_t turn = 0; turn < times; turn++) {
        size_t count;
        struct word *words = read_words(&count);
        for (size_t k = 0; turn == 0 && k < count; k++) {
            struct word *w = &words[k];
            sum = with_text(sum, w->image.bytes, w->image.len);
            sum = with_text(sum, w->text.bytes, w->text.len);
            sum = sum * 31 + w->line;
            sum = (((sum * 31 + w->left) * 31 + w->top) * 31 + w->width) * 31 + w->height;
        }
        for (size_t k = 0; k < count; k++) free(words[k].image.bytes), free(words[k].text.bytes);
        free(words);
    }
    return sum;
}

int main(int count, char **words) {
    if (count != 4 || strcmp(words[1], "words")) return 1;
    printf("%" PRIu64 "\n", words_job((uint32_t)atoi(words[2]), (uint32_t)atoi(words[3])));
    return 0;
}
