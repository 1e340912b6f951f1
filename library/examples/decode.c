/* Prints the value that is all of standard input as JSON: decode SCHEMA TYPE < BYTES. cc decode.c $(pkg-config --cflags --libs tlbox) */
#include <stdio.h>
#include <stdlib.h>
#include <string.h>
#include <tlbox.h>

/* All of a file; it is never null. */
static uint8_t *all_of(FILE *file, size_t *len) {
    uint8_t *bytes = malloc(1);
    *len = 0;
    for (;;) {
        uint8_t *more = bytes ? realloc(bytes, *len + 65536) : NULL;
        if (!more) exit(5);
        bytes = more;
        size_t n = fread(bytes + *len, 1, 65536, file);
        if (n == 0) return bytes;
        *len += n;
    }
}

int main(int argc, char **argv) {
    FILE *file = argc == 3 ? fopen(argv[1], "rb") : NULL;
    if (!file) return 2;
    tlbox h = {0};
    uint8_t out[4096], *line = out;
    uint32_t type = 0;
    size_t text_len, bytes_len, len;
    uint8_t *text = all_of(file, &text_len), *bytes = all_of(stdin, &bytes_len);
    uint32_t status = tlbox_open(&h, text, text_len, out, sizeof out, &len);
    if (status == TLBOX_DONE) status = tlbox_type(&h, (const uint8_t *)argv[2], strlen(argv[2]), &type, out, sizeof out, &len);
    if (status == TLBOX_DONE) status = tlbox_decode(&h, type, bytes, bytes_len, out, sizeof out, &len);
    if (len > sizeof out) {
        if (!(line = malloc(len))) return 5;
        tlbox_last(&h, line, len, &len);
    }
    fwrite(line, 1, len, status == TLBOX_DONE ? stdout : stderr);
    tlbox_close(&h);
    return (int)status;
}
