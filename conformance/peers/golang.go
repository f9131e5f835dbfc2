// What Go's golang.org/x/text/language answers for each line of the standard input.
//
//	golang default   language.Parse(text)
//	golang raw       language.Raw.Parse(text), which replaces no alias
//	golang version   the versions
package main

import (
	"bufio"
	"fmt"
	"os"
	"runtime"
	"strings"

	"golang.org/x/text/language"
)

// The version of the package, which the linker is told.
var text = "of unknown version"

func answer(mode, given string) string {
	canon := language.Default
	if mode == "raw" {
		canon = language.Raw
	}
	tag, refusal := canon.Parse(given)
	if refusal != nil {
		return fmt.Sprintf("! %T: %s", refusal, strings.ReplaceAll(refusal.Error(), "\n", " "))
	}
	return tag.String()
}

func main() {
	if os.Args[1] == "version" {
		fmt.Println("Go " + strings.TrimPrefix(runtime.Version(), "go") + ", x/text " + text)
		return
	}
	lines := bufio.NewReader(os.Stdin)
	for {
		line, end := lines.ReadString('\n')
		if end != nil {
			return
		}
		fmt.Println(answer(os.Args[1], strings.TrimSuffix(line, "\n")))
	}
}
