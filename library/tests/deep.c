/* deep BYTES: the deepest value, both ways, and JSON as deep as is read, in a thread of so many bytes of stack. It ends with the number of the first check
   that fails, or 0. */
#include "tlbox.h"
#include <pthread.h>
#include <stdlib.h>
#include <string.h>

#define LEVELS 120
#define NESTED 127
#define CHECK(n, is) do { if (!(is)) return (void *)(size_t)(n); } while (0)

static const char schema[] = "link#00000001 next:Chain = Chain; end#00000002 = Chain;";

/* The JSON of a chain of so many links. */
static size_t chain(char *json, int links) {
    size_t len = 0;
    for (int i = 0; i < links; i++) len += strlen(strcpy(json + len, "{\"_\":\"link\",\"next\":"));
    len += strlen(strcpy(json + len, "{\"_\":\"end\"}"));
    for (int i = 0; i < links; i++) json[len++] = '}';
    return len;
}

static void *calls(void *none) {
    static char json[8192], nested[512];
    static uint8_t bytes[4 * LEVELS], out[8192];
    tlbox h = {0};
    uint32_t type;
    size_t len, written = chain(json, LEVELS - 1);
    (void)none;
    for (int i = 0; i < LEVELS; i++) bytes[4 * i] = i < LEVELS - 1 ? 1 : 2;
    memset(nested, '[', NESTED);
    memset(nested + NESTED, ']', NESTED);
    CHECK(1, tlbox_open(&h, (const uint8_t *)schema, sizeof schema - 1, out, sizeof out, &len) == TLBOX_DONE);
    CHECK(2, tlbox_type(&h, (const uint8_t *)"Chain", 5, &type, out, sizeof out, &len) == TLBOX_DONE);
    CHECK(3, tlbox_encode(&h, type, (const uint8_t *)json, written, out, sizeof out, &len) == TLBOX_DONE);
    CHECK(4, len == sizeof bytes && memcmp(out, bytes, len) == 0);
    CHECK(5, tlbox_decode(&h, type, bytes, sizeof bytes, out, sizeof out, &len) == TLBOX_DONE);
    CHECK(6, len == written + 1 && memcmp(out, json, written) == 0);
    CHECK(7, tlbox_encode(&h, type, (const uint8_t *)nested, 2 * NESTED, out, sizeof out, &len) == TLBOX_REFUSED);
    tlbox_close(&h);
    return NULL;
}

int main(int count, char **words) {
    pthread_attr_t how;
    pthread_t thread;
    void *failed;
    if (count != 2 || pthread_attr_init(&how) || pthread_attr_setstacksize(&how, strtoul(words[1], NULL, 10)) || pthread_create(&thread, &how, calls, NULL)) return 99;
    pthread_join(thread, &failed);
    return (int)(size_t)failed;
}
