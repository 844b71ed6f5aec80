/* Compares strips by libtiff. Words: two folders. For each name that standard input gives at the head of a line, the page
 * of that name in the first folder and the one in the second must have the same sides and compression, one strip each, and
 * the same bytes in it. Prints how many pages and bytes were compared, or the first that differ. */
#include <stdint.h>
#include <stdio.h>
#include <stdlib.h>
#include <string.h>
#include <tiffio.h>

struct page {
    uint32_t width, height;
    uint16_t compression, photometric, fill_order;
    uint8_t *strip;
    tmsize_t length;
};

static void stop(const char *why, const char *name) {
    printf("%s: %s\n", name, why);
    exit(1);
}

static struct page read_page(const char *folder, const char *name) {
    char path[4096];
    snprintf(path, sizeof path, "%s/%s", folder, name);
    TIFF *file = TIFFOpen(path, "rcm"); /* one strip stays one */
    if (!file) stop("cannot open the page", path);
    if (TIFFNumberOfStrips(file) != 1) stop("not one strip", path);
    struct page page = {0};
    TIFFGetField(file, TIFFTAG_IMAGEWIDTH, &page.width);
    TIFFGetField(file, TIFFTAG_IMAGELENGTH, &page.height);
    TIFFGetField(file, TIFFTAG_COMPRESSION, &page.compression);
    TIFFGetField(file, TIFFTAG_PHOTOMETRIC, &page.photometric);
    TIFFGetFieldDefaulted(file, TIFFTAG_FILLORDER, &page.fill_order);
    page.length = TIFFRawStripSize(file, 0);
    page.strip = malloc(page.length > 0 ? page.length : 1);
    if (!page.strip || TIFFReadRawStrip(file, 0, page.strip, page.length) != page.length)
        stop("cannot read the strip", path);
    TIFFClose(file);
    return page;
}

static tmsize_t compare(const char *name, struct page one, struct page other) {
    if (one.width != other.width || one.height != other.height) stop("the sides differ", name);
    if (one.compression != other.compression) stop("the compression differs", name);
    if (one.photometric != other.photometric) stop("the value of white differs", name);
    if (one.fill_order != other.fill_order) stop("the order of bits differs", name);
    tmsize_t shorter = one.length < other.length ? one.length : other.length, at = 0;
    while (at < shorter && one.strip[at] == other.strip[at]) at++;
    if (at < shorter || one.length != other.length) {
        printf("%s: the strips differ at byte %lld; they have %lld and %lld bytes\n", name, (long long)at,
               (long long)one.length, (long long)other.length);
        exit(1);
    }
    free(one.strip);
    free(other.strip);
    return shorter;
}

int main(int count, char **words) {
    if (count != 3) stop("usage: strips FOLDER FOLDER < NAMES", words[0]);
    char line[4096];
    long pages = 0, bytes = 0;
    while (fgets(line, sizeof line, stdin)) {
        line[strcspn(line, " \n")] = 0;
        bytes += compare(line, read_page(words[1], line), read_page(words[2], line));
        pages++;
    }
    printf("%ld pages: equal strips, of %ld bytes\n", pages, bytes);
    return 0;
}
