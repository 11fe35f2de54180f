// An outbox in Go: it judges each message before it is sent, and holds back one that the bank may refuse.
// Usage: go run outbox.go BANK ORDERS MESSAGE [ANSWER MESSAGE]..  with the bank's answer between two messages.
package main

/*
#cgo CFLAGS: -I${SRCDIR}/../../crates/fints_c/include
#cgo LDFLAGS: ${SRCDIR}/../../crates/fints_c/out/libfints.a
#include "fints.h"
*/
import "C"

import (
	"fmt"
	"os"
	"unsafe"
)

// The pointer and the size of bytes; never NULL.
func at(bytes []byte) (*C.uint8_t, C.size_t) {
	if len(bytes) == 0 {
		bytes = make([]byte, 1)
		return (*C.uint8_t)(unsafe.Pointer(&bytes[0])), 0
	}
	return (*C.uint8_t)(unsafe.Pointer(&bytes[0])), C.size_t(len(bytes))
}

// Judges a message, by itself where before is nil.
func judge(bank, orders, before, answer, message []byte) (uint32, string) {
	text := make([]byte, 4096)
	for {
		var size C.size_t
		var status C.uint32_t
		p, pn := at(bank)
		o, on := at(orders)
		m, mn := at(message)
		t, tn := at(text)
		if before == nil {
			status = C.fints_judge(p, pn, o, on, m, mn, t, tn, &size)
		} else {
			b, bn := at(before)
			a, an := at(answer)
			status = C.fints_judge_after(p, pn, o, on, b, bn, a, an, m, mn, t, tn, &size)
		}
		if int(size) <= len(text) {
			return uint32(status), string(text[:size])
		}
		text = make([]byte, size)
	}
}

func read(path string) []byte {
	bytes, err := os.ReadFile(path)
	if err != nil {
		fmt.Fprintln(os.Stderr, err)
		os.Exit(2)
	}
	return bytes
}

func main() {
	paths := os.Args[1:]
	if len(paths) < 3 || len(paths)%2 == 0 {
		fmt.Fprintln(os.Stderr, "usage: outbox BANK ORDERS MESSAGE [ANSWER MESSAGE]..")
		os.Exit(2)
	}
	bank, orders := read(paths[0]), read(paths[1])
	var before, answer []byte
	for i := 2; i < len(paths); i += 2 {
		if i > 2 {
			answer = read(paths[i-1])
		}
		message := read(paths[i])
		if status, text := judge(bank, orders, before, answer, message); status != 0 {
			fmt.Printf("%s%s: held back\n", text, paths[i])
			os.Exit(1)
		}
		fmt.Printf("%s: sent\n", paths[i])
		before = message
	}
}
