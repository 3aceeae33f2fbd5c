package main

import (
	"errors"
	"flag"
	"fmt"
	"io"
	"net/http"
	"strings"
	"time"

	"wellapron.example/promql"
	"wellapron.example/promql/cmd/promql-proxy/internal/cache"
	"wellapron.example/promql/cmd/promql-proxy/internal/endpoint"
	"wellapron.example/promql/cmd/promql-proxy/internal/headers"
	"wellapron.example/promql/cmd/promql-proxy/internal/logs"
	"wellapron.example/promql/cmd/promql-proxy/internal/tenant"
	"wellapron.example/promql/cmd/promql-proxy/internal/upstream"
)

// options are what the command line says.
type options struct {
	listen, internalListen, upstream string
	alertmanager                     string
	access, alertmanagerAccess       upstream.Access
	tenants                          tenant.Source
	more, shared                     words
	headers                          headers.Rules
	readTimeout, writeTimeout        time.Duration
	idleTimeout, upstreamTimeout     time.Duration
	startTimeout, stopTimeout        time.Duration
	maxBody, maxAnswer               int64
	maxQuery, maxPatterns            uint
	maxRequests                      int
	cache                            cacheOptions
	logQueries, version              bool
	errorOnConflict                  bool
	logLevel, target                 string
}

// cacheOptions are those of the cache.
type cacheOptions struct {
	on                  bool
	split, settle, keep time.Duration
	bytes               int64
	parallel            int
	store               string
}

// words is a flag that may be given several times.
type words []string

func (w *words) String() string {
	return strings.Join(*w, ",")
}

func (w *words) Set(word string) error {
	*w = append(*w, word)
	return nil
}

// errTold says that the command line is wrong, and that the user was told why.
var errTold = errors.New("the command line is wrong")

// read reads the command line.
func read(arguments []string, out io.Writer) (*options, error) {
	o := &options{}
	flags := o.flags(out)
	if err := flags.Parse(arguments); err != nil {
		if errors.Is(err, flag.ErrHelp) {
			return nil, err
		}
		return nil, errTold
	}
	if flags.NArg() != 0 {
		return nil, fmt.Errorf("there is more than options: %q", flags.Arg(0))
	}
	return o, nil
}

// flags returns the flags that set the options.
func (o *options) flags(out io.Writer) *flag.FlagSet {
	flags := flag.NewFlagSet("promql-proxy", flag.ContinueOnError)
	flags.SetOutput(out)
	flags.StringVar(&o.listen, "listen", "localhost:9091", "the address for clients")
	flags.StringVar(&o.internalListen, "internal-listen", "", "the address for metrics, health and readiness; none where it is empty")
	flags.StringVar(&o.upstream, "upstream", "http://localhost:9090", "the Prometheus")
	addAccess(flags, &o.access, "upstream", "Prometheus")
	flags.StringVar(&o.alertmanager, "alertmanager", "", "the Alertmanager, whose alerts and silences are served, too; none where it is empty")
	addAccess(flags, &o.alertmanagerAccess, "alertmanager", "Alertmanager")
	flags.StringVar(&o.tenants.Label, "label", "", "the label that names the tenant of a series, such as tenant")
	flags.Var((*words)(&o.tenants.Fixed), "tenant", "the tenant of all clients; several times for several tenants")
	flags.StringVar(&o.tenants.Header, "tenant-header", "", "the header that has the tenant of a request")
	flags.StringVar(&o.tenants.Parameter, "tenant-parameter", "", "the parameter of the address that has the tenant of a request")
	flags.StringVar(&o.tenants.Path, "tenant-path", "", "what comes before the tenant in each path, as in /tenants/ for /tenants/team-a/api/v1/query")
	flags.BoolVar(&o.tenants.List, "tenant-list", false, "the header, the parameter or the path has several tenants, with commas between them")
	flags.Func("pass-header", "the name of a header of the client that the Prometheus gets; several times for several", o.headers.Pass)
	flags.Func("set-header", "a header that the Prometheus gets, as in 'X-Scope-OrgID: {tenant}'; several times for several", o.headers.Set)
	flags.BoolVar(&o.errorOnConflict, "error-on-conflict", false, "reject queries that have another matcher of the label of the tenant")
	flags.Var(&o.shared, "shared-metric", "the name of a metric that every tenant sees whole; several times for several")
	flags.Var(&o.more, "pass-parameter", "the name of one more parameter that the Prometheus gets; several times for several")
	o.addLimits(flags)
	o.cache.addFlags(flags)
	flags.StringVar(&o.target, "target", "prometheus-3", "what reads the queries: prometheus-2.42, prometheus-3, or rules, to let through what Prometheus reads otherwise")
	flags.StringVar(&o.logLevel, "log-level", "info", "the least level that is logged: info, warn or error")
	flags.BoolVar(&o.logQueries, "log-queries", false, "log queries, selectors and messages about them")
	flags.BoolVar(&o.version, "version", false, "print the version and end")
	return flags
}

// addAccess adds the flags for the access to a server, each with a word before it.
func addAccess(flags *flag.FlagSet, access *upstream.Access, word, server string) {
	flags.StringVar(&access.User, word+"-user", "", "the user of the proxy for the "+server)
	flags.StringVar(&access.PasswordFile, word+"-password-file", "", "the file with the password of this user")
	flags.StringVar(&access.BearerFile, word+"-bearer-file", "", "the file with a token for the "+server)
	flags.StringVar(&access.CAFile, word+"-ca-file", "", "the file with the authorities for the certificate of the "+server)
	flags.StringVar(&access.CertFile, word+"-cert-file", "", "the file with the certificate of the proxy for the "+server)
	flags.StringVar(&access.KeyFile, word+"-key-file", "", "the file with the key of this certificate")
}

func (o *options) addLimits(flags *flag.FlagSet) {
	flags.DurationVar(&o.readTimeout, "read-timeout", 10*time.Second, "how long a client may take to send a request")
	flags.DurationVar(&o.writeTimeout, "write-timeout", 0, "how long a request may take in all; 0: the read and upstream timeouts and 10s more")
	flags.DurationVar(&o.idleTimeout, "idle-timeout", 2*time.Minute, "how long a connection of a client may wait for a request")
	flags.DurationVar(&o.upstreamTimeout, "upstream-timeout", 2*time.Minute, "how long the Prometheus may take")
	flags.DurationVar(&o.startTimeout, "start-timeout", 30*time.Second, "how long to wait for the Prometheus at the start; 0: do not ask it")
	flags.DurationVar(&o.stopTimeout, "stop-timeout", 30*time.Second, "how long requests may take after SIGTERM")
	flags.IntVar(&o.maxRequests, "max-requests", 512, "the most requests that are answered at a time; more get 503")
	flags.Int64Var(&o.maxBody, "max-body", 1<<20, "the most bytes of a request's body")
	flags.Int64Var(&o.maxAnswer, "max-answer", 32<<20, "the most bytes of an answer that is filtered")
	flags.UintVar(&o.maxQuery, "max-query", 32768, "the most bytes of a query, as it is asked and as it is sent")
	flags.UintVar(&o.maxPatterns, "max-patterns", 16000, "the largest size of a query's patterns together")
}

func (c *cacheOptions) addFlags(flags *flag.FlagSet) {
	flags.BoolVar(&c.on, "cache", false, "answer range queries in parts, and keep the parts that are final")
	flags.DurationVar(&c.split, "cache-split", 24*time.Hour, "the length at whose multiples a range is cut into parts")
	flags.DurationVar(&c.settle, "cache-settle", 10*time.Minute, "how long after its time a sample may come; a part is final after that")
	flags.DurationVar(&c.keep, "cache-keep", 24*time.Hour, "how long a part is kept at most")
	flags.Int64Var(&c.bytes, "cache-bytes", 256<<20, "the most bytes of the parts that are kept in memory")
	flags.IntVar(&c.parallel, "cache-parallel", 16, "the most parts that the Prometheus is asked for at a time")
	flags.StringVar(&c.store, "cache-store", "", "a memcached that keeps the parts, as in memcached://localhost:11211; memory where it is empty")
}

// check says what is wrong with the options.
func (o *options) check() error {
	if err := o.tenants.Check(); err != nil {
		return err
	}
	if err := o.checkHeaders(); err != nil {
		return err
	}
	table := endpoint.NewTable(nil)
	table.AddAlertmanager()
	for _, name := range append([]string{o.tenants.Parameter}, o.more...) {
		if table.Takes(name) {
			return fmt.Errorf("-tenant-parameter, -pass-parameter: %q has a meaning of its own", name)
		}
	}
	for _, name := range o.more {
		if name == "" || name == o.tenants.Parameter {
			return fmt.Errorf("-pass-parameter: %q is not passed on", name)
		}
	}
	if err := endpoint.CheckShared(o.shared); err != nil {
		return fmt.Errorf("-shared-metric: %w", err)
	}
	if _, err := promql.ParseTarget(o.target); err != nil {
		return fmt.Errorf("-target: %w", err)
	}
	if _, err := logs.ParseLevel(o.logLevel); err != nil {
		return fmt.Errorf("-log-level: %w", err)
	}
	if _, err := upstream.New(o.upstream, o.access); err != nil {
		return fmt.Errorf("-upstream: %w", err)
	}
	if _, err := o.newAlertmanager(); err != nil {
		return fmt.Errorf("-alertmanager: %w", err)
	}
	if err := o.cache.check(o.maxAnswer); err != nil {
		return err
	}
	return o.checkLimits()
}

// check says what is wrong with the options of the cache.
func (c *cacheOptions) check(maxAnswer int64) error {
	switch {
	case c.split < time.Minute || c.split%time.Millisecond != 0:
		return errors.New("-cache-split is at least a minute, in whole milliseconds")
	case c.settle < 0 || c.keep < time.Second:
		return errors.New("-cache-settle is at least 0, and -cache-keep at least a second")
	case c.bytes < 1 || c.parallel < 1:
		return errors.New("-cache-bytes and -cache-parallel are at least 1")
	case c.store == "":
		return nil
	}
	if _, err := cache.NewMemcached(c.store, maxAnswer, nil); err != nil {
		return fmt.Errorf("-cache-store: %w", err)
	}
	return nil
}

// newAlertmanager returns the Alertmanager, or nil where there is none.
func (o *options) newAlertmanager() (*upstream.Server, error) {
	if o.alertmanager == "" {
		if o.alertmanagerAccess != (upstream.Access{}) {
			return nil, errors.New("there is none for these credentials")
		}
		return nil, nil
	}
	return upstream.New(o.alertmanager, o.alertmanagerAccess)
}

func (o *options) checkHeaders() error {
	if o.tenants.Header != "" && !headers.IsFree(o.tenants.Header) {
		return fmt.Errorf("-tenant-header: %q is not the name of a header that can have a tenant", o.tenants.Header)
	}
	for _, name := range o.headers.Passed() {
		if name == http.CanonicalHeaderKey(o.tenants.Header) {
			return fmt.Errorf("-pass-header: %s has the tenant: -set-header '%s: %s' gives it to the Prometheus", name, name, headers.Placeholder)
		}
	}
	if (o.access.HasAuthorization() || o.alertmanagerAccess.HasAuthorization()) && o.headers.Has("Authorization") {
		return errors.New("-pass-header: the server behind gets the Authorization of the proxy")
	}
	if len(o.tenants.Fixed) == 0 {
		return nil
	}
	fixed, err := tenant.New(o.tenants.Label, o.tenants.Fixed)
	if err != nil {
		return err
	}
	if _, failed := o.headers.Of(nil, fixed); failed != nil {
		return fmt.Errorf("-set-header: %w", failed)
	}
	return nil
}

func (o *options) checkLimits() error {
	for _, it := range []time.Duration{o.readTimeout, o.idleTimeout, o.upstreamTimeout, o.stopTimeout} {
		if it <= 0 {
			return errors.New("a timeout is longer than nothing")
		}
	}
	if o.startTimeout < 0 || o.maxBody < 1 || o.maxAnswer < 1 || o.maxQuery < 1 || o.maxRequests < 1 {
		return errors.New("-start-timeout is at least 0, and the limits are at least 1")
	}
	least := o.readTimeout + o.upstreamTimeout
	if o.writeTimeout == 0 {
		o.writeTimeout = least + 10*time.Second
	}
	if o.writeTimeout <= least {
		return fmt.Errorf("-write-timeout is longer than the read and the upstream timeout together: %v", least)
	}
	return nil
}
