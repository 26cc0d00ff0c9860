// Package heskavo runs verified eBPF programs that write into BPF ring buffers, by the proved library for C.
//
// An Engine owns rings and programs, which stay from call to call. It has no lock: goroutines that share one use a
// sync.Mutex.
//
// The package links with libheskavo.a. The compiler finds it, and its header, in /usr/local, where tools/install puts
// them. For another folder, set CGO_CFLAGS=-IDIR/include and CGO_LDFLAGS=-LDIR/lib. A module that uses the package has
// the folder of its sources in its go.mod:
//
//	require heskavo v0.0.0
//	replace heskavo => /usr/local/share/heskavo/bindings/go
package heskavo

// #cgo LDFLAGS: -lheskavo
// #include <heskavo_host.h>
import "C"

import (
	"errors"
	"fmt"
	"unsafe"
)

// Why a call of an engine failed. Load also returns a *RefusedError.
var (
	// ErrArgument is returned if a size, a length, a flag, or the number of a ring or a program is out of bounds.
	ErrArgument = errors.New("heskavo: argument out of bounds")
	// ErrClosed is returned by every call of a closed engine.
	ErrClosed = errors.New("heskavo: engine closed")
	// ErrMemory is returned if there was no memory. The engine is as it was.
	ErrMemory = errors.New("heskavo: out of memory")
	// ErrFull is returned by Put if the ring has no room for the record.
	ErrFull = errors.New("heskavo: no room in the ring")
	// ErrEmpty is returned by Take and TakeInto if the ring has no record.
	ErrEmpty = errors.New("heskavo: no record in the ring")
	// ErrBusy is returned by Take and TakeInto if the ring's next record is neither submitted nor discarded yet.
	ErrBusy = errors.New("heskavo: next record busy")
)

// A RefusedError says why a program was refused, in the numbers of heskavo_host.h.
type RefusedError struct {
	Layer  uint32 // enum heskavo_layer: the bytes, the shape, or the rules of verification
	Number uint32 // what is wrong in that layer
	Unit   uint32 // the unit of eight bytes at which it is wrong, from 0
}

func (e *RefusedError) Error() string {
	return fmt.Sprintf("heskavo: program refused: layer %d, number %d, at unit %d", e.Layer, e.Number, e.Unit)
}

// A Program is the number of a program in its engine.
type Program uint32

// A Record was taken from a ring.
type Record struct {
	Position  uint64 // in bytes since the ring was opened
	Len       uint32 // the length in bytes; of a discarded record, the length that it had
	Discarded bool
	Bytes     []byte // empty if the record was discarded
}

// A Query is what Engine.Query asks a ring for, as bpf_ringbuf_query's flags do.
type Query uint64

const (
	AvailableData    Query = iota // the bytes between the two positions
	RingSize                      // the size of the ring in bytes
	ConsumerPosition              // the position of the consumer
	ProducerPosition              // the position of the producer
)

// Counts are the records of a ring since it was opened. Made is the sum of the last four.
type Counts struct {
	Made      uint64 // records that were granted
	Refused   uint64 // reservations and outputs that found no room; at most 2^64 - 1 are reported
	Consumed  uint64 // records that were submitted and taken
	Discarded uint64
	Waiting   uint64 // records that were submitted and not taken
	Busy      uint64 // records that were neither submitted nor discarded
}

// noCopy has `go vet` report a copy of a struct that contains it.
type noCopy struct{}

func (*noCopy) Lock()   {}
func (*noCopy) Unlock() {}

// An Engine owns rings and verified programs. One goroutine at a time may call its methods. It is never copied.
type Engine struct {
	_      noCopy
	handle C.struct_heskavo_engine
}

// front returns the pointer to the first of the bytes, or nil if there are none.
func front(bytes []byte) *C.uint8_t {
	if len(bytes) == 0 {
		return nil
	}
	return (*C.uint8_t)(unsafe.Pointer(&bytes[0]))
}

// failure returns the error of a status, or nil if the call did what it is for.
func (e *Engine) failure(status C.uint32_t) error {
	switch status {
	case C.HESKAVO_DONE:
		return nil
	case C.HESKAVO_MEMORY:
		return ErrMemory
	case C.HESKAVO_FULL:
		return ErrFull
	case C.HESKAVO_EMPTY:
		return ErrEmpty
	case C.HESKAVO_MORE:
		return ErrBusy
	}
	if e.handle.inside == nil {
		return ErrClosed
	}
	return ErrArgument
}

// Open returns an engine with a ring of each of these sizes, for programs with contexts of ctxLen bytes. A size is a
// power of two from 4,096 to 67,108,864; there are at most 16, and a context has at most 65,536 bytes. Close frees the
// rings.
func Open(sizes []uint64, ctxLen uint32) (*Engine, error) {
	var first *C.uint64_t
	if len(sizes) > 0 {
		first = (*C.uint64_t)(unsafe.Pointer(&sizes[0]))
	}
	e := new(Engine)
	switch C.heskavo_engine_open(first, C.size_t(len(sizes)), C.uint32_t(ctxLen), &e.handle) {
	case C.HESKAVO_DONE:
		return e, nil
	case C.HESKAVO_MEMORY:
		return nil, ErrMemory
	}
	return nil, ErrArgument
}

// Close frees the engine's memory; its records are lost. A second call does nothing.
func (e *Engine) Close() {
	C.heskavo_engine_close(&e.handle)
}

// Load verifies a program, its bytes as RFC 9669 lays them out, and adds it. The error is a *RefusedError if the
// program was refused.
func (e *Engine) Load(program []byte) (Program, error) {
	var number C.uint32_t
	var verdict C.struct_heskavo_verdict
	status := C.heskavo_engine_load(&e.handle, front(program), C.size_t(len(program)), &number, &verdict)
	if status == C.HESKAVO_REFUSED {
		return 0, &RefusedError{uint32(verdict.layer), uint32(verdict.number), uint32(verdict.unit)}
	}
	return Program(number), e.failure(status)
}

// Run runs a program to its end over the rings as the calls before left them, and returns its result. The context has
// the engine's length.
func (e *Engine) Run(program Program, context []byte) (uint64, error) {
	var value C.uint64_t
	length := C.size_t(len(context))
	status := C.heskavo_engine_run(&e.handle, C.uint32_t(program), front(context), length, &value)
	return uint64(value), e.failure(status)
}

// Put outputs a copy of the bytes to a ring as one record, with the flags of bpf_ringbuf_output.
func (e *Engine) Put(ring uint32, bytes []byte, flags uint64) error {
	length := C.size_t(len(bytes))
	return e.failure(C.heskavo_engine_put(&e.handle, C.uint32_t(ring), front(bytes), length, C.uint64_t(flags)))
}

// Take takes the next record of a ring.
func (e *Engine) Take(ring uint32) (Record, error) {
	var record Record
	err := e.TakeInto(ring, &record)
	return record, err
}

// TakeInto is like Take, and reuses the memory of record.Bytes. If it returns an error, the record is unchanged.
func (e *Engine) TakeInto(ring uint32, record *Record) error {
	var found C.struct_heskavo_taken_record
	buffer := record.Bytes[:cap(record.Bytes)]
	take := func() C.uint32_t {
		return C.heskavo_engine_take(&e.handle, C.uint32_t(ring), front(buffer), C.size_t(len(buffer)), &found)
	}
	status := take()
	if status == C.HESKAVO_ROOM {
		buffer = make([]byte, found.len)
		status = take()
	}
	if err := e.failure(status); err != nil {
		return err
	}
	if found.discarded != 0 {
		buffer = buffer[:0]
	} else {
		buffer = buffer[:found.len]
	}
	*record = Record{uint64(found.position), uint32(found.len), found.discarded != 0, buffer}
	return nil
}

// Query answers a query of a ring, as bpf_ringbuf_query does.
func (e *Engine) Query(ring uint32, what Query) (uint64, error) {
	var answer C.uint64_t
	status := C.heskavo_engine_query(&e.handle, C.uint32_t(ring), C.uint64_t(what), &answer)
	return uint64(answer), e.failure(status)
}

// Counts returns what a ring counts since it was opened.
func (e *Engine) Counts(ring uint32) (Counts, error) {
	var counts C.struct_heskavo_ring_counts
	status := C.heskavo_engine_counts(&e.handle, C.uint32_t(ring), &counts)
	return Counts{
		Made:      uint64(counts.made),
		Refused:   uint64(counts.refused),
		Consumed:  uint64(counts.consumed),
		Discarded: uint64(counts.discarded),
		Waiting:   uint64(counts.waiting),
		Busy:      uint64(counts.busy),
	}, e.failure(status)
}
