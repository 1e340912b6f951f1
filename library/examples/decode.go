// Prints the value that is all of standard input as JSON: decode SCHEMA TYPE < BYTES.
package main

// #cgo pkg-config: tlbox
// #include <tlbox.h>
import "C"

import (
	"io"
	"os"
	"unsafe"
)

// The first byte of some, for C: never null.
func first(b []byte) *C.uint8_t { return (*C.uint8_t)(unsafe.Pointer(&append(b, 0)[0])) }

func main() {
	text, err := os.ReadFile(os.Args[1])
	bytes, bad := io.ReadAll(os.Stdin)
	if err != nil || bad != nil {
		os.Exit(3)
	}
	var h C.tlbox
	var kind C.uint32_t
	var n C.size_t
	out, name := make([]byte, 4096), []byte(os.Args[2])
	status := C.tlbox_open(&h, first(text), C.size_t(len(text)), (*C.uint8_t)(&out[0]), 4096, &n)
	if status == C.TLBOX_DONE {
		status = C.tlbox_type(&h, first(name), C.size_t(len(name)), &kind, (*C.uint8_t)(&out[0]), 4096, &n)
	}
	if status == C.TLBOX_DONE {
		status = C.tlbox_decode(&h, kind, first(bytes), C.size_t(len(bytes)), (*C.uint8_t)(&out[0]), 4096, &n)
	}
	if n > 4096 {
		out = make([]byte, n)
		C.tlbox_last(&h, (*C.uint8_t)(&out[0]), n, &n)
	}
	to := map[bool]*os.File{true: os.Stdout, false: os.Stderr}[status == C.TLBOX_DONE]
	to.Write(out[:n])
	C.tlbox_close(&h)
	os.Exit(int(status))
}
