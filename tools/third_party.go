// Judges roots and proofs by an RFC 6962 library that isn't this project's. Each line of standard input is a question, in hexadecimal digits:
//
//	root ROOT LEAF ..                     is this the root of the leaves?
//	proof ROOT INDEX COUNT LEAF HASH ..   is the leaf the one at this index of so many, by these hashes from the bottom up?
//
// For each a line `yes` or `no` is printed. A leaf is its data, without the mark that the library hashes before it.
package main

import (
	"bufio"
	"bytes"
	"crypto/sha256"
	"encoding/hex"
	"fmt"
	"os"
	"strconv"
	"strings"

	"github.com/NebulousLabs/merkletree"
)

func bytesOf(words []string) [][]byte {
	all := make([][]byte, len(words))
	for i, word := range words {
		one, err := hex.DecodeString(word)
		if err != nil {
			panic(err)
		}
		all[i] = one
	}
	return all
}

func number(word string) uint64 {
	n, err := strconv.ParseUint(word, 10, 64)
	if err != nil {
		panic(err)
	}
	return n
}

func isRoot(root []byte, leaves [][]byte) bool {
	tree := merkletree.New(sha256.New())
	for _, leaf := range leaves {
		tree.Push(leaf)
	}
	return bytes.Equal(tree.Root(), root)
}

func answer(words []string) bool {
	root := bytesOf(words[1:2])[0]
	if words[0] == "root" {
		return isRoot(root, bytesOf(words[2:]))
	}
	return merkletree.VerifyProof(sha256.New(), root, bytesOf(words[4:]), number(words[2]), number(words[3]))
}

func main() {
	lines := bufio.NewScanner(os.Stdin)
	lines.Buffer(make([]byte, 1<<20), 1<<24)
	out := bufio.NewWriter(os.Stdout)
	defer out.Flush()
	for lines.Scan() {
		if answer(strings.Fields(lines.Text())) {
			fmt.Fprintln(out, "yes")
		} else {
			fmt.Fprintln(out, "no")
		}
	}
}
