// Three ways to wait for ever, with goroutines. A promise is a channel of one value, and a join waits until one is closed.
package main

import (
	"os"
	"time"
)

// Two tasks that wait for each other's promise, while a third runs on.
func cycle() {
	p, q := make(chan int, 1), make(chan int, 1)
	go func() { p <- <-q }()
	go func() { q <- <-p }()
	for {
		time.Sleep(time.Millisecond)
	}
}

// A promise that nobody sets: its owner ends without.
func unset() {
	p := make(chan int, 1)
	go func(mine chan int) {}(p)
	println(<-p)
}

// A task that joins itself.
func itself() {
	ended := make(chan struct{})
	go func() {
		defer close(ended)
		<-ended
	}()
	<-ended
}

func main() {
	map[string]func(){"cycle": cycle, "unset": unset, "itself": itself}[os.Args[1]]()
}
