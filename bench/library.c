/* library FOLDER TIMES: microseconds of processor time of a decode and of an encode of the value of FOLDER/schema, FOLDER/type, FOLDER/bytes, FOLDER/json. */
#include "tlbox.h"
#include <stdio.h>
#include <stdlib.h>
#include <time.h>

static uint8_t *all_of(const char *folder, const char *name, size_t *len) {
    char path[4096];
    snprintf(path, sizeof path, "%s/%s", folder, name);
    FILE *file = fopen(path, "rb");
    uint8_t *bytes = malloc(16777217);
    if (!file || !bytes) exit(2);
    *len = fread(bytes, 1, 16777216, file);
    fclose(file);
    return bytes;
}

static double now(void) {
    struct timespec at;
    clock_gettime(CLOCK_PROCESS_CPUTIME_ID, &at);
    return at.tv_sec * 1e6 + at.tv_nsec / 1e3;
}

int main(int argc, char **argv) {
    if (argc != 3) return 2;
    size_t schema_len, name_len, bytes_len, json_len, len;
    uint8_t *schema = all_of(argv[1], "schema", &schema_len), *name = all_of(argv[1], "type", &name_len);
    uint8_t *bytes = all_of(argv[1], "bytes", &bytes_len), *json = all_of(argv[1], "json", &json_len);
    static uint8_t out[16777216];
    long times = atol(argv[2]);
    uint32_t type;
    tlbox h = {0};
    if (tlbox_open(&h, schema, schema_len, out, sizeof out, &len)) return 1;
    if (tlbox_type(&h, name, name_len, &type, out, sizeof out, &len)) return 1;
    double start = now();
    for (long i = 0; i < times; i++)
        if (tlbox_decode(&h, type, bytes, bytes_len, out, sizeof out, &len)) return 1;
    double decoded = now();
    for (long i = 0; i < times; i++)
        if (tlbox_encode(&h, type, json, json_len, out, sizeof out, &len)) return 1;
    printf("%.3f %.3f\n", (decoded - start) / times, (now() - decoded) / times);
    tlbox_close(&h);
    return 0;
}
