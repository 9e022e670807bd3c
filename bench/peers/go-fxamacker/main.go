// fxamacker/cbor: its Core Deterministic mode, or RFC 7049's canonical order, with the widest
// limits that it lets one set.
//
//	driver normalise [ORDER] < IN > OUT
//	driver check [ORDER] < IN
//	driver compare ORDER FILE_A FILE_B
package main

import (
	"bufio"
	"bytes"
	"fmt"
	"io"
	"os"

	"github.com/fxamacker/cbor"
)

func must(err error) {
	if err != nil {
		fmt.Fprintln(os.Stderr, err)
		os.Exit(2)
	}
}

// normalise writes the deterministic encodings of what the data holds.
func normalise(data []byte, order string, out io.Writer) {
	reading, err := cbor.DecOptions{
		DupMapKey:        cbor.DupMapKeyEnforcedAPF,
		MaxNestedLevels:  256,
		MaxArrayElements: 2147483647,
		MaxMapPairs:      2147483647,
	}.DecMode()
	must(err)
	options := cbor.CoreDetEncOptions()
	if order == "length-first" {
		options = cbor.CanonicalEncOptions()
	}
	// Times would lose their tag otherwise.
	options.TimeTag = cbor.EncTagRequired
	writing, err := options.EncMode()
	must(err)
	decoder := reading.NewDecoder(bytes.NewReader(data))
	for decoder.NumBytesRead() < int64(len(data)) {
		var value interface{}
		must(decoder.Decode(&value))
		encoded, err := writing.Marshal(value)
		must(err)
		_, err = out.Write(encoded)
		must(err)
	}
}

// beside takes what is written, and holds it against these bytes.
type beside struct {
	rest   []byte
	differ bool
}

func (b *beside) Write(data []byte) (int, error) {
	if bytes.HasPrefix(b.rest, data) {
		b.rest = b.rest[len(data):]
	} else {
		b.differ = true
	}
	return len(data), nil
}

func tell(same bool, yes, no string) {
	if same {
		fmt.Println(yes)
		return
	}
	fmt.Println(no)
	os.Exit(1)
}

func main() {
	order := "bytewise"
	if len(os.Args) > 2 {
		order = os.Args[2]
	}
	if os.Args[1] == "compare" {
		first, err := os.ReadFile(os.Args[3])
		must(err)
		var whole bytes.Buffer
		normalise(first, order, &whole)
		second, err := os.ReadFile(os.Args[4])
		must(err)
		held := &beside{rest: whole.Bytes()}
		normalise(second, order, held)
		tell(!held.differ && len(held.rest) == 0, "same", "different")
		return
	}
	data, err := io.ReadAll(os.Stdin)
	must(err)
	if os.Args[1] == "check" {
		held := &beside{rest: data}
		normalise(data, order, held)
		tell(!held.differ && len(held.rest) == 0, "deterministic", "not deterministic")
		return
	}
	out := bufio.NewWriterSize(os.Stdout, 1<<20)
	normalise(data, order, out)
	must(out.Flush())
}
