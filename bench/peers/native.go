// The native program of docs/LIBRARY.md with goroutines: a Fibonacci number with a goroutine for each call, the sum of a
// slice by halves, and two goroutines that wait for each other's promise, beside a third one that goes on for three seconds.
// The word "all" has it wait for the two at its end.
package main

import (
	"fmt"
	"os"
	"time"
)

func fib(n int) int {
	if n < 2 {
		return n
	}
	a, b := make(chan int, 1), make(chan int, 1)
	go func() { a <- fib(n - 1) }()
	go func() { b <- fib(n - 2) }()
	return <-a + <-b
}

func sum(part []int) int {
	if len(part) > 1000 {
		a, b := make(chan int, 1), make(chan int, 1)
		go func() { a <- sum(part[:len(part)/2]) }()
		go func() { b <- sum(part[len(part)/2:]) }()
		return <-a + <-b
	}
	total := 0
	for _, x := range part {
		total += x
	}
	return total
}

func partner(mine, other, ended chan int) {
	v := <-other
	mine <- v
	ended <- v
}

func knot(waits bool) int {
	p, q, ended, third := make(chan int, 1), make(chan int, 1), make(chan int, 2), make(chan int, 1)
	go partner(p, q, ended)
	go partner(q, p, ended)
	go func() {
		for end := time.Now().Add(3 * time.Second); time.Now().Before(end); {
		}
		third <- 3
	}()
	n := <-third
	if waits {
		<-ended
	}
	return n
}

func main() {
	numbers := make([]int, 10000)
	for k := range numbers {
		numbers[k] = k
	}
	fmt.Println("fib", fib(12))
	fmt.Println("sum", sum(numbers))
	fmt.Println("knot", knot(len(os.Args) > 1))
}
