/* Calls each export, and ends with the number of the first check that fails, or 0. It is linked with malloc, realloc and free wrapped, so that each request
   can be refused in turn and what isn't given back is counted. */
#include "tlbox.h"
#include <stdio.h>
#include <stdlib.h>
#include <string.h>

static long left = -1, blocks = 0;
void *__real_malloc(size_t);
void *__real_realloc(void *, size_t);
void __real_free(void *);

/* Whether this request is the one that is refused. */
static int refused(void) { return left >= 0 && left-- == 0; }

void *__wrap_malloc(size_t n) {
    void *p = refused() ? NULL : __real_malloc(n);
    blocks += p != NULL;
    return p;
}

void *__wrap_realloc(void *p, size_t n) {
    if (refused()) return NULL;
    void *q = __real_realloc(p, n);
    blocks += q != NULL && p == NULL;
    return q;
}

void __wrap_free(void *p) {
    blocks -= p != NULL;
    __real_free(p);
}

#define TEXT(s) (const uint8_t *)(s), sizeof(s) - 1
#define OUT out, sizeof out, &len
#define CHECK(n, is) do { if (!(is)) return n; } while (0)

static const char schema[] = "record#00000001 flags:# number:int scattered:int name:string quarter:flags.0?int = Record;\n";
static const char json[] = "{\"_\":\"record\",\"flags\":1,\"number\":5,\"scattered\":-7,\"name\":\"ab\",\"quarter\":3}";
static const uint8_t spelling[] = {1, 0, 0, 0, 1, 0, 0, 0, 5, 0, 0, 0, 249, 255, 255, 255, 2, 'a', 'b', 0, 3, 0, 0, 0};
static const char line[] = "{\"_\":\"record\",\"flags\":1,\"name\":\"ab\",\"number\":5,\"quarter\":3,\"scattered\":-7}\n";

static int is(const uint8_t *out, size_t len, const void *wanted, size_t size) { return len == size && memcmp(out, wanted, size) == 0; }
static const char list[] = "00000001 record\nconstructors 1 functions 0\n";
#define IS(wanted) is(out, len, wanted, sizeof(wanted) - 1)

/* Each status of each call, and what stands in `out`, `len` and `type` after it. */
static int statuses(void) {
    tlbox h = {0};
    uint8_t out[256], none[1] = {0}, before[256];
    size_t len = 7;
    uint32_t type = 99;
    CHECK(1, tlbox_version() == TLBOX_VERSION);
    memset(out, 170, sizeof out);
    memcpy(before, out, sizeof out);
    CHECK(2, tlbox_decode(&h, 0, none, 0, OUT) == TLBOX_CLOSED && len == 0);
    CHECK(3, tlbox_encode(&h, 0, none, 0, OUT) == TLBOX_CLOSED && len == 0);
    CHECK(4, tlbox_type(&h, TEXT("Record"), &type, OUT) == TLBOX_CLOSED && len == 0 && type == 99);
    len = 7;
    tlbox_last(&h, OUT);
    CHECK(5, len == 0 && memcmp(out, before, sizeof out) == 0);
    CHECK(26, tlbox_check(&h, OUT) == TLBOX_CLOSED && len == 0);
    CHECK(6, tlbox_open(&h, TEXT("a x:int"), OUT) == TLBOX_REFUSED && IS("tlbox: schema 7 Unexpected\n") && !h.at);
    memset(out, 170, sizeof out);
    CHECK(7, tlbox_open(&h, TEXT(schema), OUT) == TLBOX_DONE && h.at && len == 0 && memcmp(out, before, sizeof out) == 0);
    CHECK(8, tlbox_decode(&h, 0, none, 0, OUT) == TLBOX_NO_TYPE && len == 0);
    CHECK(9, tlbox_type(&h, TEXT("Recrod"), &type, OUT) == TLBOX_REFUSED && IS("tlbox: type - UnknownType\n") && type == 99);
    CHECK(10, tlbox_type(&h, TEXT("Record"), &type, OUT) == TLBOX_DONE && type == 0 && len == 0);
    CHECK(11, tlbox_type(&h, TEXT("vector<Record>"), &type, OUT) == TLBOX_DONE && type == 1);
    CHECK(12, tlbox_encode(&h, 0, TEXT(json), OUT) == TLBOX_DONE && is(out, len, spelling, sizeof spelling));
    CHECK(13, tlbox_decode(&h, 0, spelling, sizeof spelling, OUT) == TLBOX_DONE && IS(line));
    memset(out, 170, sizeof out);
    CHECK(14, tlbox_decode(&h, 0, spelling, sizeof spelling, out, sizeof line - 2, &len) == TLBOX_DONE && len == sizeof line - 1);
    CHECK(15, memcmp(out, before, sizeof out) == 0);
    tlbox_last(&h, out, sizeof line - 1, &len);
    CHECK(16, IS(line) && out[len] == 170);
    CHECK(17, tlbox_decode(&h, 0, spelling, sizeof spelling - 1, OUT) == TLBOX_REFUSED && IS("tlbox: input 20 Truncated\n"));
    tlbox_last(&h, OUT);
    CHECK(18, IS("tlbox: input 20 Truncated\n"));
    CHECK(19, tlbox_encode(&h, 0, TEXT("{\"_\":\"recrod\"}"), OUT) == TLBOX_REFUSED && IS("tlbox: input - NoSuchName -\n"));
    CHECK(20, tlbox_encode(&h, 2, TEXT(json), OUT) == TLBOX_NO_TYPE && len == 0);
    tlbox_last(&h, OUT);
    CHECK(21, len == 0);
    CHECK(27, tlbox_check(&h, OUT) == TLBOX_DONE && IS(list));
    memset(out, 170, sizeof out);
    CHECK(28, tlbox_check(&h, out, sizeof list - 2, &len) == TLBOX_DONE && len == sizeof list - 1 && memcmp(out, before, sizeof out) == 0);
    tlbox_last(&h, OUT);
    CHECK(29, IS(list));
    CHECK(30, tlbox_decode(&h, 0, spelling, sizeof spelling, OUT) == TLBOX_DONE && IS(line));
    CHECK(31, tlbox_layers(TEXT(schema), TEXT(schema), TEXT("Record"), OUT) == TLBOX_DONE && IS("yes 1\n"));
    CHECK(32, tlbox_layers(TEXT(schema), TEXT("record#00000001 flags:# number:int = Record;"), TEXT("Record"), OUT) == TLBOX_REFUSED && IS("tlbox: layers decl 0 FieldGone 2\n"));
    CHECK(33, tlbox_layers(TEXT(schema), TEXT("a x:int"), TEXT("Record"), OUT) == TLBOX_REFUSED && IS("tlbox: new 7 Unexpected\n"));
    CHECK(34, tlbox_layers(TEXT("a x:int"), TEXT("a x:int"), TEXT("Recrod"), OUT) == TLBOX_REFUSED && IS("tlbox: schema 7 Unexpected\n"));
    CHECK(35, tlbox_layers(TEXT(schema), TEXT("a x:int"), TEXT("Recrod"), OUT) == TLBOX_REFUSED && IS("tlbox: type - UnknownType\n"));
    memset(out, 170, sizeof out);
    CHECK(36, tlbox_layers(TEXT(schema), TEXT(schema), TEXT("Record"), out, 5, &len) == TLBOX_DONE && len == 6 && memcmp(out, before, sizeof out) == 0);
    CHECK(22, tlbox_open(&h, TEXT("a#00000002 = A;"), OUT) == TLBOX_DONE);
    CHECK(23, tlbox_encode(&h, 0, TEXT(json), OUT) == TLBOX_NO_TYPE);
    tlbox_close(&h);
    CHECK(24, !h.at);
    tlbox_close(&h);
    CHECK(25, !h.at && blocks == 0);
    return 0;
}

/* Refuses each request of each call in turn: it answers 5 and can be made again, or works without. */
static int refusals(void) {
    tlbox h = {0};
    uint8_t out[256];
    size_t len;
    uint32_t type = 0, status;
    for (int job = 0; job < 10; job++) {
        for (long at = 0;; at++) {
            if (job == 0) tlbox_close(&h);
            left = at;
            switch (job) {
            case 0: status = tlbox_open(&h, TEXT(schema), OUT); break;
            case 1: status = tlbox_type(&h, TEXT("Record"), &type, OUT); break;
            case 2: status = tlbox_encode(&h, type, TEXT(json), OUT); break;
            case 3: status = tlbox_decode(&h, type, spelling, sizeof spelling, OUT); break;
            case 4: status = tlbox_decode(&h, type, spelling, sizeof spelling - 1, OUT); break;
            case 5: status = tlbox_encode(&h, type, TEXT("{\"_\":\"recrod\"}"), OUT); break;
            case 6: status = tlbox_type(&h, TEXT("Recrod"), &type, OUT); break;
            case 7: status = tlbox_layers(TEXT(schema), TEXT("a#00000002 = A;"), TEXT("Record"), OUT); break;
            case 8: status = tlbox_check(&h, OUT); break;
            default: status = tlbox_layers(TEXT(schema), TEXT(schema), TEXT("Record"), OUT); break;
            }
            int fell = left < 0;
            left = -1;
            uint32_t wanted = job < 4 || job > 7 ? TLBOX_DONE : TLBOX_REFUSED;
            CHECK(40 + job, status == wanted || (fell && status == TLBOX_MEMORY && len == 0));
            if (!fell) break;
        }
    }
    tlbox_close(&h);
    return blocks == 0 ? 0 : 39;
}

/* Opens a schema of a file as often as is told, with a type and a call each time: as much memory is left each time. */
static int opens(const char *name, const char *of, long times) {
    static uint8_t text[4194304];
    uint8_t out[256];
    size_t len;
    uint32_t type;
    FILE *file = fopen(name, "rb");
    CHECK(60, file);
    size_t size = fread(text, 1, sizeof text, file);
    fclose(file);
    long before = blocks;
    for (long i = 0; i < times; i++) {
        tlbox h = {0};
        CHECK(61, tlbox_open(&h, text, size, OUT) == TLBOX_DONE);
        CHECK(62, tlbox_type(&h, (const uint8_t *)of, strlen(of), &type, OUT) == TLBOX_DONE);
        CHECK(63, tlbox_encode(&h, type, TEXT("null"), OUT) == TLBOX_REFUSED);
        tlbox_close(&h);
        CHECK(64, blocks == before);
    }
    return 0;
}

int main(int argc, char **argv) {
    int fault = statuses();
    if (!fault) fault = refusals();
    if (!fault && argc == 4) fault = opens(argv[1], argv[2], atol(argv[3]));
    if (fault) printf("check %d fails\n", fault);
    return fault;
}
