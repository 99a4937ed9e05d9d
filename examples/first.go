// first.go: prints the canonical board of Microsoft's deal 1, and the move 3a as it is made there.

package main

// #cgo pkg-config: fcanon
// #include <fcanon.h>
import "C"
import "fmt"

func main() {
	var board, canonical C.fcanon_board
	var passage C.fcanon_passage
	var text [256]C.char
	move := C.fcanon_move{'3', 'a'}
	if C.fcanon_deal(C.FCANON_FREECELL, 1, &board) != 0 ||
		C.fcanon_canon(C.FCANON_FREECELL, &board, &canonical, &passage) != 0 ||
		C.fcanon_write(C.FCANON_FREECELL, &canonical, &text[0]) != 0 ||
		C.fcanon_carry(C.FCANON_FREECELL, &passage, &move) != 0 {
		panic("refused")
	}
	fmt.Printf("%s> %c%c\n", C.GoString(&text[0]), move.from, move.to)
}
