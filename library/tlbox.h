/* tlbox in a process of yours: values of a TL schema as bytes and as lines of JSON, with the answers and the refusals of the program `tlbox`.
   docs/LIBRARY.md tells how to build and link it. Version 1 of this interface; tlbox_version tells that of the library. */
#ifndef TLBOX_H
#define TLBOX_H

#include <stddef.h>
#include <stdint.h>

#ifdef __cplusplus
extern "C" {
#endif

#define TLBOX_VERSION 1

/* A schema that is open, with the types that were asked for. It is one pointer in your storage.
     - All zero is closed; begin so: `tlbox h = {0};`.
     - It owns what `at` leads to. Never write into it, and never go on with a copy of one that is open: two would own the same.
     - It may move to another thread, in an order that a lock or a thread's start or end makes, and is handed to one call at a time. Calls of two handles may
       run beside each other, and so may calls of tlbox_layers.
     - A call takes up to 192 KiB of the thread's stack, where a value or a JSON is as deep as it may be. Give a thread 256 KiB.
     - Calls take memory by malloc, realloc and free. So none is made in a signal handler, nor in the child of a fork of a process that had threads.
     - tlbox_close gives all of its memory back. */
typedef struct tlbox {
    void *at;
} tlbox;

/* What a call answers. 0, 1 and 5 are the program's. */
enum {
    TLBOX_DONE = 0,    /* the answer is in `out` */
    TLBOX_REFUSED = 1, /* a schema, a type or an input is refused, or something breaks from one schema to the next; `out` has the line that the program writes, with its line feed */
    TLBOX_MEMORY = 5,  /* malloc gave none; the handle is as it was, and the call may be made again */
    TLBOX_CLOSED = 100, /* the handle isn't open */
    TLBOX_NO_TYPE = 101  /* no type of this handle has the number */
};

/* Of all calls:
     - A pointer is never null, even where its length is 0, and what different parameters lead to doesn't overlap.
     - `*len` becomes the number of bytes of the answer, or of the line of a refusal; 0, where there is neither.
     - These bytes are written to out[0 .. *len], if *len <= room; else `out` stays as it was. tlbox_last gives the same bytes again, to more room.
       tlbox_open and tlbox_layers keep no bytes to give again; what they tell has less than 128.
     - No text needs an end: each has its length. */

/* Opens the schema that `text` spells, of at most 4,194,304 bytes. What was open before is closed first. Where it isn't done the handle is closed. */
uint32_t tlbox_open(tlbox *h, const uint8_t *text, size_t text_len, uint8_t *out, size_t room, size_t *len);

/* Keeps a type of the schema, as `Vector<int>` or `!`, and gives it the next number, from 0, in `*type`, which stays as it was where it isn't done. Ask
   once for each type: a handle keeps 65,536 at most, and answers TLBOX_MEMORY then. */
uint32_t tlbox_type(tlbox *h, const uint8_t *name, size_t name_len, uint32_t *type, uint8_t *out, size_t room, size_t *len);

/* The list of the schema's declarations: what `tlbox check` writes. */
uint32_t tlbox_check(tlbox *h, uint8_t *out, size_t room, size_t *len);

/* The line of JSON of the value of the type that all of the bytes spell, with its line feed: what `tlbox decode` writes. */
uint32_t tlbox_decode(tlbox *h, uint32_t type, const uint8_t *bytes, size_t bytes_len, uint8_t *out, size_t room, size_t *len);

/* The bytes of the value of the type that the JSON is: what `tlbox encode` writes. */
uint32_t tlbox_encode(tlbox *h, uint32_t type, const uint8_t *json, size_t json_len, uint8_t *out, size_t room, size_t *len);

/* Whether the schema that `new_text` spells reads the bytes that a type of the one that `old_text` spells had: what `tlbox layers` writes, `yes N` with its
   line feed; a refusal tells what breaks first, or why a schema or the type is refused. It takes no handle. */
uint32_t tlbox_layers(const uint8_t *old_text, size_t old_len, const uint8_t *new_text, size_t new_len, const uint8_t *name, size_t name_len, uint8_t *out,
                      size_t room, size_t *len);

/* The bytes that the last call of this handle made, again. */
void tlbox_last(tlbox *h, uint8_t *out, size_t room, size_t *len);

/* Closes the handle, if it is open: it is all zero then. */
void tlbox_close(tlbox *h);

/* The version of the interface that the library has: TLBOX_VERSION, or it isn't the one of this header. */
uint32_t tlbox_version(void);

#ifdef __cplusplus
}
#endif

#endif
