// Verifies a program, prints what it can cost at most and of how many jobs a ring of SIZE bytes has room for the records, and counts those of the tape that
// it wrote by their length: agent PROGRAM SIZE < TAPE
package main

// #cgo LDFLAGS: -lheskavo
// #include <heskavo_host.h>
import "C"

import (
	"fmt"
	"io"
	"math/bits"
	"os"
	"strconv"
	"unsafe"
)

// The pointer to the first of the bytes; null where there are none.
func front(bytes []byte) *C.uint8_t {
	if len(bytes) == 0 {
		return nil
	}
	return (*C.uint8_t)(unsafe.Pointer(&bytes[0]))
}

func isAccepted(path string, size uint64) bool {
	program, err := os.ReadFile(path)
	if err != nil {
		return false
	}
	var cost C.struct_heskavo_cost
	var ring C.struct_heskavo_ring_cost
	var verdict C.struct_heskavo_verdict
	status := C.heskavo_cost(front(program), C.size_t(len(program)), 16, &cost, &ring, 1, &verdict)
	if status == C.HESKAVO_REFUSED {
		fmt.Println("refused layer", verdict.layer, "number", verdict.number, "unit", verdict.unit)
	}
	if status != C.HESKAVO_DONE {
		return false
	}
	fmt.Println("steps", cost.steps, "calls", cost.calls)
	fmt.Println("ring 0 records", ring.records, "bytes", ring.bytes, "held", ring.held_bytes)
	if size > 0 && ring.bytes > 0 {
		// Together they ask for fewer bytes than the ring has.
		fmt.Println("jobs", (size-1)/uint64(ring.bytes))
	}
	return true
}

func main() {
	if len(os.Args) != 3 {
		os.Exit(1)
	}
	size, _ := strconv.ParseUint(os.Args[2], 10, 64)
	if !isAccepted(os.Args[1], size) {
		os.Exit(1)
	}
	var position, discarded uint64
	var counts [33]uint64
	var record C.struct_heskavo_record
	status := C.uint32_t(C.HESKAVO_MORE)
	bytes, piece := []byte{}, make([]byte, 65536)
	for status == C.HESKAVO_MORE {
		got, err := io.ReadFull(os.Stdin, piece)
		if got == 0 && err != nil {
			break
		}
		bytes = append(bytes, piece[:got]...)
		for {
			status = C.heskavo_tape_next(front(bytes), C.size_t(len(bytes)), C.uint64_t(size), C.uint64_t(position), &record)
			if status != C.HESKAVO_DONE {
				break
			}
			counts[bits.Len32(uint32(record.len))]++
			discarded += uint64(record.discarded)
			position += uint64(record.span)
			bytes = bytes[record.span:]
		}
	}
	for width, count := range counts {
		if count > 0 {
			fmt.Println("below", uint64(1)<<width, count)
		}
	}
	fmt.Println("discarded", discarded, "bytes", position)
	if status == C.HESKAVO_FAULT {
		fmt.Println("fault", record.fault)
	} else if status == C.HESKAVO_MORE && len(bytes) > 0 {
		fmt.Println("truncated")
	}
	if status != C.HESKAVO_MORE || len(bytes) > 0 {
		os.Exit(1)
	}
}
