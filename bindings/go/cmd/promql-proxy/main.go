// Promql-proxy stands before a Prometheus, and lets each tenant see the series with its own label, and nothing else:
//
//	promql-proxy -upstream http://localhost:9090 -label tenant -tenant-header X-Tenant -listen localhost:9091
//
// What it serves and what it refuses is told in docs/guide/proxy.md of the repository.
package main

import (
	"context"
	"errors"
	"flag"
	"fmt"
	"io"
	"os"
	"os/signal"
	"syscall"

	"wellapron.example/promql"
	"wellapron.example/promql/cmd/promql-proxy/internal/logs"
)

// The statuses with which the program ends.
const (
	ended  = 0
	failed = 1
	usage  = 2
)

func main() {
	os.Exit(run(os.Args[1:], os.Stdout, os.Stderr))
}

func run(arguments []string, out, log io.Writer) int {
	o, err := read(arguments, log)
	if errors.Is(err, flag.ErrHelp) {
		return ended
	}
	if err == nil && o.version {
		fmt.Fprintln(out, "promql-proxy", promql.Version())
		return ended
	}
	if err == nil {
		err = o.check()
	}
	if err != nil {
		if !errors.Is(err, errTold) {
			fmt.Fprintf(log, "promql-proxy: %v\n", err)
		}
		return usage
	}
	level, _ := logs.ParseLevel(o.logLevel)
	logger := logs.New(log, level)
	service, err := newService(o, logger)
	if err == nil {
		ctx, stop := signal.NotifyContext(context.Background(), syscall.SIGTERM, syscall.SIGINT)
		// A second signal ends the process at once.
		go func() {
			<-ctx.Done()
			stop()
		}()
		err = service.run(ctx)
	}
	if err != nil {
		logger.Log(logs.Error, "failed", "cause", err)
		return failed
	}
	return ended
}
