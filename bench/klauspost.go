// klauspost/reedsolomon for bench.c, as a library for C: go build -buildmode=c-shared.
package main

import "C"

import (
	"unsafe"

	"github.com/klauspost/reedsolomon"
)

// The encoder of the code at hand, and its rows as the calls take them.
var (
	encoder                    reedsolomon.Encoder
	encoded, recovered, tested [][]byte
	lost                       int
)

func rowsOf(rows **C.uchar, count, lanes C.int) [][]byte {
	found := make([][]byte, count)
	for i, row := range unsafe.Slice((**byte)(unsafe.Pointer(rows)), count) {
		found[i] = unsafe.Slice(row, lanes)
	}
	return found
}

func must(err error) {
	if err != nil {
		panic(err)
	}
}

// Encode reads the rows of data and writes the n - k first rows that are written. Recover reads the last k nodes, and writes the rows of data
// that are lost. The call that tests reads all nodes.
//
//export klauspost_keep
func klauspost_keep(n, k, lanes C.int, nodes, data, written **C.uchar) {
	var err error
	encoder, err = reedsolomon.New(int(k), int(n-k), reedsolomon.WithCauchyMatrix(), reedsolomon.WithMaxGoroutines(1))
	must(err)
	encoded = append(rowsOf(data, k, lanes), rowsOf(written, n-k, lanes)...)
	tested = rowsOf(nodes, n, lanes)
	lost = int(n - k)
	recovered = append(rowsOf(written, n-k, lanes), tested[lost:]...)
}

//export klauspost_encode
func klauspost_encode(runs C.int) {
	for ; runs > 0; runs-- {
		must(encoder.Encode(encoded))
	}
}

//export klauspost_recover
func klauspost_recover(runs C.int) {
	for ; runs > 0; runs-- {
		for i := 0; i < lost; i++ {
			recovered[i] = recovered[i][:0]
		}
		must(encoder.ReconstructData(recovered))
	}
}

//export klauspost_belongs
func klauspost_belongs(runs C.int) C.int {
	for ; runs > 0; runs-- {
		right, err := encoder.Verify(tested)
		must(err)
		if !right {
			return 0
		}
	}
	return 1
}

func main() {}
