package main

import (
	"context"
	"errors"
	"fmt"
	"net"
	"net/http"
	"time"

	"wellapron.example/promql"
	"wellapron.example/promql/cmd/promql-proxy/internal/cache"
	"wellapron.example/promql/cmd/promql-proxy/internal/endpoint"
	"wellapron.example/promql/cmd/promql-proxy/internal/front"
	"wellapron.example/promql/cmd/promql-proxy/internal/logs"
	"wellapron.example/promql/cmd/promql-proxy/internal/metrics"
	"wellapron.example/promql/cmd/promql-proxy/internal/upstream"
)

const (
	maxHeader    = 1 << 16
	checkTimeout = 5 * time.Second
)

// service is a proxy with its two servers.
type service struct {
	options  *options
	log      *logs.Logger
	behind   *upstream.Server
	internal *front.Internal
	clients  *http.Server
	inside   *http.Server
}

// newService returns the service that the options, which are right, ask for.
func newService(o *options, log *logs.Logger) (*service, error) {
	behind, err := upstream.New(o.upstream, o.access)
	if err != nil {
		return nil, err
	}
	alertmanager, err := o.newAlertmanager()
	if err != nil {
		return nil, err
	}
	table := endpoint.NewTable(o.more)
	if alertmanager != nil {
		table.AddAlertmanager()
	}
	if err := setLibrary(o); err != nil {
		return nil, err
	}
	counted := metrics.New(time.Now())
	kept, err := newCache(o, counted)
	if err != nil {
		return nil, err
	}
	handler := &front.Front{
		Upstream:        behind,
		Alertmanager:    alertmanager,
		Tenants:         o.tenants,
		Headers:         o.headers,
		RejectConflicts: o.errorOnConflict,
		Shared:          o.shared,
		Table:           table,
		Metrics:         counted,
		Log:             log,
		LogQueries:      o.logQueries,
		Places:          make(chan struct{}, o.maxRequests),
		MaxBody:         o.maxBody,
		MaxAnswer:       o.maxAnswer,
		Timeout:         o.upstreamTimeout,
		Cache:           kept,
	}
	s := &service{options: o, log: log, behind: behind, internal: &front.Internal{Metrics: counted}}
	s.clients = s.server(handler, o.writeTimeout)
	s.inside = s.server(s.internal, o.readTimeout)
	return s, nil
}

// newCache returns the cache that the options ask for, or nil.
func newCache(o *options, counted *metrics.Metrics) (*cache.Cache, error) {
	if !o.cache.on {
		return nil, nil
	}
	var store cache.Store = cache.NewMemory(o.cache.bytes, counted)
	if o.cache.store != "" {
		var err error
		if store, err = cache.NewMemcached(o.cache.store, o.maxAnswer, counted.CacheFailure); err != nil {
			return nil, fmt.Errorf("-cache-store: %w", err)
		}
	}
	access := o.access
	return &cache.Cache{
		Store:     store,
		Server:    fmt.Sprintf("%q", []string{o.upstream, access.User, access.PasswordFile, access.BearerFile, access.CertFile}),
		Split:     o.cache.split,
		Settle:    o.cache.settle,
		Keep:      o.cache.keep,
		MaxAnswer: o.maxAnswer,
		Timeout:   o.upstreamTimeout,
		Places:    make(chan struct{}, o.cache.parallel),
		Counts:    counted,
		Now:       time.Now,
	}, nil
}

// setLibrary sets what the library reads, and looks whether the matcher of the tenant is within that.
func setLibrary(o *options) error {
	promql.SetLimits(o.maxQuery, o.maxPatterns)
	target, err := promql.ParseTarget(o.target)
	if err == nil {
		err = promql.SetTarget(target)
	}
	if err != nil {
		return fmt.Errorf("-target: %w", err)
	}
	if err := o.tenants.Check(); err != nil {
		return fmt.Errorf("within -max-query and -max-patterns: %w", err)
	}
	return nil
}

// server returns a server in which no client holds a connection for longer than the timeouts.
func (s *service) server(handler http.Handler, writeTimeout time.Duration) *http.Server {
	return &http.Server{
		Handler:           handler,
		ReadHeaderTimeout: s.options.readTimeout,
		ReadTimeout:       s.options.readTimeout,
		WriteTimeout:      writeTimeout,
		IdleTimeout:       s.options.idleTimeout,
		MaxHeaderBytes:    maxHeader,
		ErrorLog:          s.log.Standard(),
	}
}

// run serves until the context ends, and then waits for the requests that are there.
func (s *service) run(ctx context.Context) error {
	s.log.Log(logs.Info, "starting", "version", promql.Version(), "upstream", s.options.upstream, "label", s.options.tenants.Label,
		"tenant", s.options.tenants)
	ended := make(chan error, 2)
	if s.options.internalListen != "" {
		if err := s.start(s.inside, "internal", s.options.internalListen, ended); err != nil {
			return err
		}
		defer s.inside.Close()
	}
	if err := s.wait(ctx); err != nil {
		return err
	}
	if ctx.Err() != nil {
		return nil
	}
	if err := s.start(s.clients, "clients", s.options.listen, ended); err != nil {
		return err
	}
	defer s.clients.Close()
	s.internal.SetReady(true)
	select {
	case err := <-ended:
		return err
	case <-ctx.Done():
		return s.stop()
	}
}

// wait waits for the server behind.
func (s *service) wait(ctx context.Context) error {
	if s.options.startTimeout == 0 {
		return nil
	}
	waiting, cancel := context.WithTimeout(ctx, s.options.startTimeout)
	defer cancel()
	if err := s.behind.Wait(waiting, checkTimeout); err != nil && ctx.Err() == nil {
		return fmt.Errorf("the server behind, %s: %w", s.options.upstream, err)
	}
	return nil
}

// start listens, and serves from then on.
func (s *service) start(server *http.Server, name, address string, ended chan<- error) error {
	listener, err := net.Listen("tcp", address)
	if err != nil {
		return err
	}
	s.log.Log(logs.Info, "listening", "for", name, "address", listener.Addr())
	go func() {
		if err := server.Serve(listener); !errors.Is(err, http.ErrServerClosed) {
			ended <- err
		}
	}()
	return nil
}

// stop takes no more requests, and gives those that are there their time.
func (s *service) stop() error {
	s.internal.SetReady(false)
	s.log.Log(logs.Info, "stopping")
	ctx, cancel := context.WithTimeout(context.Background(), s.options.stopTimeout)
	defer cancel()
	if err := s.clients.Shutdown(ctx); err != nil {
		return fmt.Errorf("requests were cut off: %w", err)
	}
	s.log.Log(logs.Info, "stopped")
	return nil
}
