// examples/serve/pool.go SOCKET COUNT: so many requests, by eight at once over a pool of Go's client, which asks again by itself
// where it may. It prints how many failed.
package main

import (
	"context"
	"fmt"
	"io"
	"net"
	"net/http"
	"os"
	"sort"
	"strconv"
	"strings"
	"sync"
	"time"
)

func main() {
	count, _ := strconv.Atoi(os.Args[2])
	client := &http.Client{Transport: &http.Transport{
		MaxIdleConnsPerHost: 8,
		DialContext: func(ctx context.Context, _, _ string) (net.Conn, error) {
			return (&net.Dialer{}).DialContext(ctx, "unix", os.Args[1])
		},
	}}
	var lock sync.Mutex
	var workers sync.WaitGroup
	failed, times := 0, []time.Duration{}
	for worker := 0; worker < 8; worker++ {
		workers.Add(1)
		go func() {
			defer workers.Done()
			for i := 0; i < count/8; i++ {
				start := time.Now()
				err := ask(client, i)
				lock.Lock()
				times = append(times, time.Since(start))
				if err != nil {
					failed++
					fmt.Fprintln(os.Stderr, err)
				}
				lock.Unlock()
			}
		}()
	}
	workers.Wait()
	sort.Slice(times, func(a, b int) bool { return times[a] < times[b] })
	fmt.Fprintln(os.Stderr, "p50", times[len(times)/2], "p99", times[len(times)*99/100], "most", times[len(times)-1])
	fmt.Println(failed, "failed")
}

func ask(client *http.Client, i int) error {
	method, path, body := "GET", "/", ""
	if i%10 == 9 {
		method, path, body = "PUT", "/machine-config", `{"vcpu_count":1,"mem_size_mib":16}`
	}
	request, err := http.NewRequest(method, "http://localhost"+path, strings.NewReader(body))
	if err != nil {
		return err
	}
	answer, err := client.Do(request)
	if err != nil {
		return err
	}
	defer answer.Body.Close()
	if _, err := io.Copy(io.Discard, answer.Body); err != nil {
		return err
	}
	if answer.StatusCode >= 300 {
		return fmt.Errorf("%s", answer.Status)
	}
	return nil
}
