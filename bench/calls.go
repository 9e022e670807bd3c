// What a call of the library costs from Go, by cgo: nanoseconds, the best of some rounds.
package main

// #include <cborn.h>
import "C"
import (
	"fmt"
	"os"
	"time"
)

// normalise gives the deterministic encoding of the items in data, as in docs/LIBRARY.md.
func normalise(data []byte) []byte {
	out := make([]byte, len(data)+len(data)/3+1)
	var told C.cborn_told
	code := C.cborn_normalise(C.CBORN_WIRE, C.CBORN_WIRE, C.CBORN_BYTEWISE, C.CBORN_USUAL_DEPTH,
		(*C.uint8_t)(&data[0]), C.size_t(len(data)), (*C.uint8_t)(&out[0]), C.size_t(len(out)), &told)
	if code != C.CBORN_OK {
		panic(code)
	}
	return out[:told.length]
}

// check tells the first defect of data, of which each input here has one or none.
func check(data []byte) {
	var place C.uint64_t
	code := C.cborn_check(C.CBORN_BYTEWISE, C.CBORN_USUAL_DEPTH, (*C.uint8_t)(&data[0]), C.size_t(len(data)), &place)
	if code != C.CBORN_OK && code>>8 != C.CBORN_DEFECT_LONG_HEAD>>8 {
		panic(code)
	}
}

func timed(name string, length int, call func()) {
	// short rounds, which a machine that is shared disturbs least
	rounds := 1 + 10000/(length+100)
	best := time.Hour
	for again := 0; again < 2000; again++ {
		start := time.Now()
		for n := 0; n < rounds; n++ {
			call()
		}
		if each := time.Since(start); each < best {
			best = each
		}
	}
	fmt.Printf("Go|%s|%d|%d\n", name, length, best.Nanoseconds()/int64(rounds))
}

func main() {
	for _, name := range os.Args[1:] {
		data, err := os.ReadFile(name)
		if err != nil {
			panic(err)
		}
		timed("normalise", len(data), func() { normalise(data) })
		timed("check", len(data), func() { check(data) })
	}
}
