package heskavo_test

import (
	"encoding/binary"
	"errors"
	"fmt"
	"reflect"
	"runtime"
	"sync"
	"testing"

	"heskavo"
)

// submit42 reserves a record of eight bytes, and submits 42 if it was granted.
var submit42 = bytesOf(
	0x1851_0000_0000_0000, 0, 0xb702_0000_0800_0000, 0xb703_0000_0000_0000,
	0x8500_0000_8300_0000, 0x1500_0400_0000_0000, 0x7a00_0000_2a00_0000, 0xbf01_0000_0000_0000,
	0xb702_0000_0000_0000, 0x8500_0000_8400_0000, 0xb700_0000_0000_0000, 0x9500_0000_0000_0000)

// discard8 reserves a record of eight bytes, and discards it if it was granted.
var discard8 = bytesOf(
	0x1851_0000_0000_0000, 0, 0xb702_0000_0800_0000, 0xb703_0000_0000_0000,
	0x8500_0000_8300_0000, 0x1500_0300_0000_0000, 0xbf01_0000_0000_0000, 0xb702_0000_0000_0000,
	0x8500_0000_8500_0000, 0xb700_0000_0000_0000, 0x9500_0000_0000_0000)

func bytesOf(units ...uint64) []byte {
	var program []byte
	for _, unit := range units {
		program = binary.BigEndian.AppendUint64(program, unit)
	}
	return program
}

func open(t testing.TB, sizes []uint64, ctxLen uint32) *heskavo.Engine {
	t.Helper()
	engine, err := heskavo.Open(sizes, ctxLen)
	if err != nil {
		t.Fatal(err)
	}
	t.Cleanup(engine.Close)
	return engine
}

// want fails the test unless both are deeply equal.
func want(t *testing.T, got, wanted any) {
	t.Helper()
	if !reflect.DeepEqual(got, wanted) {
		t.Errorf("got %v, want %v", got, wanted)
	}
}

// check fails the test unless the error is the wanted one.
func check(t *testing.T, err, wanted error) {
	t.Helper()
	if !errors.Is(err, wanted) {
		t.Errorf("got the error %v, want %v", err, wanted)
	}
}

func ExampleEngine() {
	engine, err := heskavo.Open([]uint64{65536}, 16)
	if err != nil {
		fmt.Println(err)
		return
	}
	defer engine.Close()
	if err := engine.Put(0, []byte("hello"), 0); err != nil {
		fmt.Println(err)
	}
	for {
		record, err := engine.Take(0)
		if err != nil {
			fmt.Println(err)
			return
		}
		fmt.Printf("%d: %s\n", record.Position, record.Bytes)
	}
	// Output:
	// 0: hello
	// heskavo: no record in the ring
}

func TestProgramsAndCallersWriteIntoOneRing(t *testing.T) {
	engine := open(t, []uint64{4096}, 16)
	submits, err := engine.Load(submit42)
	check(t, err, nil)
	discards, err := engine.Load(discard8)
	check(t, err, nil)
	want(t, []heskavo.Program{submits, discards}, []heskavo.Program{0, 1})
	for _, program := range []heskavo.Program{submits, discards} {
		value, err := engine.Run(program, make([]byte, 16))
		check(t, err, nil)
		want(t, value, uint64(0))
	}
	check(t, engine.Put(0, []byte("abc"), 0), nil)
	check(t, engine.Put(0, make([]byte, 4096), 0), heskavo.ErrFull)
	for _, wanted := range []heskavo.Record{
		{Position: 0, Len: 8, Bytes: []byte{42, 0, 0, 0, 0, 0, 0, 0}},
		{Position: 16, Len: 8, Discarded: true, Bytes: nil},
		{Position: 32, Len: 3, Bytes: []byte("abc")},
	} {
		available, err := engine.Query(0, heskavo.AvailableData)
		check(t, err, nil)
		want(t, available, 48-wanted.Position)
		record, err := engine.Take(0)
		check(t, err, nil)
		want(t, record, wanted)
	}
	_, err = engine.Take(0)
	check(t, err, heskavo.ErrEmpty)
	counts, err := engine.Counts(0)
	check(t, err, nil)
	want(t, counts, heskavo.Counts{Made: 3, Refused: 1, Consumed: 2, Discarded: 1})
}

func TestTakeIntoReusesBytes(t *testing.T) {
	engine := open(t, []uint64{4096}, 0)
	record := heskavo.Record{Bytes: make([]byte, 0, 100)}
	first := &record.Bytes[:1][0]
	for _, length := range []int{100, 0, 7} {
		payload := make([]byte, length)
		check(t, engine.Put(0, payload, 0), nil)
		check(t, engine.TakeInto(0, &record), nil)
		want(t, record.Bytes, payload)
		want(t, &record.Bytes[:1][0] == first, true)
	}
	before := record
	check(t, engine.TakeInto(0, &record), heskavo.ErrEmpty)
	want(t, record, before)
	check(t, engine.Put(0, make([]byte, 101), 0), nil)
	check(t, engine.TakeInto(0, &record), nil)
	want(t, len(record.Bytes), 101)
}

func TestRefusalsHaveTheirReasons(t *testing.T) {
	_, err := heskavo.Open([]uint64{4097}, 16)
	check(t, err, heskavo.ErrArgument)
	engine := open(t, []uint64{4096}, 16)
	var refused *heskavo.RefusedError
	_, err = engine.Load(bytesOf(0x9500_0000_0000_0000))
	if !errors.As(err, &refused) {
		t.Fatalf("got %v, want a refusal", err)
	}
	want(t, *refused, heskavo.RefusedError{Layer: 3, Number: 1, Unit: 0})
	_, err = engine.Load(nil)
	want(t, err, error(&heskavo.RefusedError{Layer: 1, Number: 1, Unit: 0}))
	program, err := engine.Load(submit42)
	check(t, err, nil)
	_, err = engine.Run(program, make([]byte, 15))
	check(t, err, heskavo.ErrArgument)
	_, err = engine.Run(program+1, make([]byte, 16))
	check(t, err, heskavo.ErrArgument)
	check(t, engine.Put(1, []byte("abc"), 0), heskavo.ErrArgument)
	check(t, engine.Put(0, []byte("abc"), 4), heskavo.ErrArgument)
}

func TestClosedEngine(t *testing.T) {
	engine := open(t, []uint64{4096}, 16)
	engine.Close()
	engine.Close()
	check(t, engine.Put(0, nil, 0), heskavo.ErrClosed)
	_, err := engine.Take(0)
	check(t, err, heskavo.ErrClosed)
	_, err = engine.Load(submit42)
	check(t, err, heskavo.ErrClosed)
}

func TestGoroutinesShareAnEngineByAMutex(t *testing.T) {
	const producers, records = 4, 500
	engine := open(t, []uint64{65536}, 0)
	var lock sync.Mutex
	for number := byte(0); number < producers; number++ {
		go func(number byte) {
			for count := uint32(0); count < records; {
				payload := binary.LittleEndian.AppendUint32([]byte{number}, count)
				lock.Lock()
				err := engine.Put(0, payload, 0)
				lock.Unlock()
				if err == nil {
					count++
				} else {
					runtime.Gosched()
				}
			}
		}(number)
	}
	var next [producers]uint32
	for taken := 0; taken < producers*records; {
		lock.Lock()
		record, err := engine.Take(0)
		lock.Unlock()
		if err == heskavo.ErrEmpty {
			runtime.Gosched()
			continue
		}
		check(t, err, nil)
		number := record.Bytes[0]
		want(t, binary.LittleEndian.Uint32(record.Bytes[1:]), next[number])
		next[number]++
		taken++
	}
	lock.Lock()
	defer lock.Unlock()
	counts, err := engine.Counts(0)
	check(t, err, nil)
	want(t, counts.Consumed, uint64(producers*records))
}

func BenchmarkRunAndTake(b *testing.B) {
	engine := open(b, []uint64{65536}, 16)
	program, err := engine.Load(submit42)
	if err != nil {
		b.Fatal(err)
	}
	var record heskavo.Record
	context := make([]byte, 16)
	b.ReportAllocs()
	for i := 0; i < b.N; i++ {
		if _, err := engine.Run(program, context); err != nil {
			b.Fatal(err)
		}
		if err := engine.TakeInto(0, &record); err != nil {
			b.Fatal(err)
		}
	}
}
