// Roll plays a script line by line, as a tool does over days, and prints what the program keyset
// prints.
//
//	go run ./examples/roll <algorithm-roll.script
package main

import (
	"bufio"
	"errors"
	"fmt"
	"log"
	"os"
	"strings"

	"keyset"
)

func main() {
	log.SetFlags(0)
	if err := play(bufio.NewScanner(os.Stdin)); err != nil {
		log.Fatal(err)
	}
}

func play(lines *bufio.Scanner) error {
	lines.Scan()
	zone, err := keyset.Open(lines.Text())
	if err != nil {
		return err
	}
	defer zone.Close()
	for lines.Scan() {
		actions, err := zone.Accept(lines.Text())
		var refused *keyset.RefusedError
		switch {
		case err == nil:
			fmt.Println(strings.Join(append([]string{"ok"}, actions...), " "))
		case errors.As(err, &refused):
			// Nothing has changed: a wait that is too early may be made again.
			fmt.Println(err)
		default:
			return err
		}
	}
	if err := lines.Err(); err != nil {
		return err
	}
	closing, err := zone.Closing()
	fmt.Print(closing)
	return err
}
