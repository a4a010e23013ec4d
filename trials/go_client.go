// Clients of Go's net/http, each with a connection that it keeps, that ask on and on, one request after another.
//
//	go run trials/go_client.go ADDRESS CLIENTS SECONDS
//
// prints how many answers there were, how many connections were opened, how many calls failed, and the longest time in which a client
// had no answer. Requests aren't signed: what is tried is what the client does where the server ends a connection between two requests.
package main

import (
	"bytes"
	"fmt"
	"io"
	"net/http"
	"net/http/httptrace"
	"os"
	"strconv"
	"sync"
	"time"
)

type tally struct {
	answers, opened, failed int
	gap                     time.Duration
	why                     string
}

func ask(client *http.Client, address string, found *tally) error {
	request, err := http.NewRequest("POST", "http://"+address+"/", bytes.NewReader([]byte("{}")))
	if err != nil {
		return err
	}
	request.Header.Set("Content-Type", "application/x-amz-json-1.1")
	request.Header.Set("X-Amz-Target", "TrentService.ListKeys")
	trace := &httptrace.ClientTrace{GotConn: func(info httptrace.GotConnInfo) {
		if !info.Reused {
			found.opened++
		}
	}}
	reply, err := client.Do(request.WithContext(httptrace.WithClientTrace(request.Context(), trace)))
	if err != nil {
		return err
	}
	defer reply.Body.Close()
	_, err = io.Copy(io.Discard, reply.Body)
	return err
}

func askOn(address string, end time.Time) tally {
	client := &http.Client{Transport: &http.Transport{MaxIdleConnsPerHost: 1}, Timeout: 20 * time.Second}
	var found tally
	for last := time.Now(); time.Now().Before(end); {
		if err := ask(client, address, &found); err != nil {
			found.failed++
			found.why = err.Error()
			continue
		}
		found.answers++
		if gap := time.Since(last); gap > found.gap {
			found.gap = gap
		}
		last = time.Now()
	}
	return found
}

func main() {
	clients, _ := strconv.Atoi(os.Args[2])
	seconds, _ := strconv.ParseFloat(os.Args[3], 64)
	end := time.Now().Add(time.Duration(seconds * float64(time.Second)))
	tallies := make([]tally, clients)
	var all sync.WaitGroup
	for n := range tallies {
		all.Add(1)
		go func(n int) {
			defer all.Done()
			tallies[n] = askOn(os.Args[1], end)
		}(n)
	}
	all.Wait()
	var sum tally
	for _, one := range tallies {
		sum.answers += one.answers
		sum.opened += one.opened
		sum.failed += one.failed
		if one.gap > sum.gap {
			sum.gap = one.gap
		}
		if one.why != "" {
			sum.why = " (" + one.why + ")"
		}
	}
	fmt.Printf("%d answers, %d connections, %d failed%s, next within %.1f s\n", sum.answers, sum.opened, sum.failed, sum.why, sum.gap.Seconds())
}
