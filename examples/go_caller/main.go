package main

// #include <pressclip.h>
import "C"

import "fmt"

func text(s string) (*C.char, C.size_t) { return C.CString(s), C.size_t(len(s)) }

func main() {
	var shared *C.pressclip_shared
	var result *C.pressclip_result
	C.pressclip_shared_open(false, &shared)
	defer C.pressclip_shared_close(&shared)
	id, idLength := text("tea-prices")
	query, queryLength := text("+tea pric*")
	if status := C.pressclip_shared_register(shared, id, idLength, query, queryLength, nil, 0); status != 0 {
		panic(C.GoString(C.pressclip_word(status)))
	}
	name, nameLength := text("text")
	words, length := text("Tea prices rise again")
	field := C.pressclip_field{name, nameLength, words, length}
	C.pressclip_shared_match(shared, id, idLength, &field, 1, &result)
	defer C.pressclip_result_free(result)
	for C.pressclip_next_id(result, &id, &idLength) {
		fmt.Println(C.GoStringN(id, C.int(idLength)), "holds of the article")
	}
}
