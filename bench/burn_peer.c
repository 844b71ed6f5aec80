/* The peer of `burn IN L T W H OUT FORM` on libtiff: reads the strips of a bilevel page whose white is 0, uncompressed or
 * in Group 4, blackens the box in its packed rows by whole bytes, and writes the page as one strip: as it is, or in
 * Group 4. */
#include <stdint.h>
#include <stdio.h>
#include <stdlib.h>
#include <string.h>
#include <tiffio.h>

static void stop(const char *why) {
    fprintf(stderr, "burn_peer: %s\n", why);
    exit(1);
}

static void need(int well, const char *why) {
    if (!well) stop(why);
}

/* Sets the pixels from left to right - 1 of a packed row; the first pixel is in the high bit. */
static void blacken(uint8_t *row, uint32_t left, uint32_t right) {
    uint32_t first = left / 8, last = (right - 1) / 8;
    uint8_t from = 0xFF >> left % 8, to = (uint8_t)(0xFF << (7 - (right - 1) % 8));
    if (first == last) {
        row[first] |= from & to;
        return;
    }
    row[first] |= from;
    memset(row + first + 1, 0xFF, last - first - 1);
    row[last] |= to;
}

int main(int count, char **words) {
    need(count == 8, "usage: burn_peer IN L T W H OUT plain|g4");
    int g4 = strcmp(words[7], "g4") == 0;
    need(g4 || strcmp(words[7], "plain") == 0, "the form is plain or g4");
    uint32_t left = strtoul(words[2], NULL, 10), top = strtoul(words[3], NULL, 10);
    uint32_t wide = strtoul(words[4], NULL, 10), high = strtoul(words[5], NULL, 10);

    /* strips stay as they are, and the file is read without a map of it, which takes least */
    TIFF *in = TIFFOpen(words[1], "rcm");
    need(in != NULL, "cannot open the page");
    uint32_t width = 0, height = 0;
    uint16_t bits = 0, compression = 0, photometric = 0, unit = 0;
    float xres = 0, yres = 0;
    TIFFGetField(in, TIFFTAG_IMAGEWIDTH, &width);
    TIFFGetField(in, TIFFTAG_IMAGELENGTH, &height);
    TIFFGetField(in, TIFFTAG_BITSPERSAMPLE, &bits);
    TIFFGetField(in, TIFFTAG_COMPRESSION, &compression);
    TIFFGetField(in, TIFFTAG_PHOTOMETRIC, &photometric);
    TIFFGetField(in, TIFFTAG_XRESOLUTION, &xres);
    TIFFGetField(in, TIFFTAG_YRESOLUTION, &yres);
    TIFFGetField(in, TIFFTAG_RESOLUTIONUNIT, &unit);
    need(bits == 1 && (compression == COMPRESSION_NONE || compression == COMPRESSION_CCITTFAX4) &&
             photometric == PHOTOMETRIC_MINISWHITE && !TIFFIsTiled(in), "not a bilevel page in strips");
    need(wide > 0 && high > 0 && left < width && wide <= width - left && top < height && high <= height - top,
         "the box is not on the page");

    tmsize_t row_bytes = TIFFScanlineSize(in), size = row_bytes * height, read = 0;
    uint8_t *page = malloc(size);
    need(page != NULL, "out of memory");
    for (uint32_t k = 0; k < TIFFNumberOfStrips(in); k++) {
        tmsize_t part = TIFFReadEncodedStrip(in, k, page + read, size - read);
        need(part > 0, "cannot read a strip");
        read += part;
    }
    need(read == size, "the strips are too short");
    TIFFClose(in);

    for (uint32_t y = top; y < top + high; y++) blacken(page + y * row_bytes, left, left + wide);

    TIFF *out = TIFFOpen(words[6], "wl");
    need(out != NULL, "cannot open the new page");
    TIFFSetField(out, TIFFTAG_IMAGEWIDTH, width);
    TIFFSetField(out, TIFFTAG_IMAGELENGTH, height);
    TIFFSetField(out, TIFFTAG_BITSPERSAMPLE, 1);
    TIFFSetField(out, TIFFTAG_COMPRESSION, g4 ? COMPRESSION_CCITTFAX4 : COMPRESSION_NONE);
    if (g4) TIFFSetField(out, TIFFTAG_GROUP4OPTIONS, 0);
    TIFFSetField(out, TIFFTAG_PHOTOMETRIC, PHOTOMETRIC_MINISWHITE);
    TIFFSetField(out, TIFFTAG_FILLORDER, FILLORDER_MSB2LSB);
    TIFFSetField(out, TIFFTAG_SAMPLESPERPIXEL, 1);
    TIFFSetField(out, TIFFTAG_ROWSPERSTRIP, height);
    TIFFSetField(out, TIFFTAG_XRESOLUTION, xres);
    TIFFSetField(out, TIFFTAG_YRESOLUTION, yres);
    TIFFSetField(out, TIFFTAG_RESOLUTIONUNIT, unit);
    need(TIFFWriteEncodedStrip(out, 0, page, size) == size, "cannot write the strip");
    need(TIFFFlush(out), "cannot write the new page");
    TIFFClose(out);
    free(page);
    return 0;
}
