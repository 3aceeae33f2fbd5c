"""Requests for bindings/proxy.py: those of honest clients, and those of clients who want to see more than they may."""

from collections.abc import Iterator, Sequence
from urllib.parse import quote, quote_from_bytes

# A time at which the stores of the servers have samples.
NOW = 1_700_006_600

# Queries, and whether they give the same where the tenant is alone: those of `absent` show the matchers of their argument.
HONEST_QUERIES = (
    ("up", True),
    ("http_requests_total", True),
    ("sum(rate(http_requests_total[5m]))", True),
    ("sum by (job) (rate(http_requests_total[5m])) / on (job) group_left () sum by (job) (memory_bytes)", True),
    ('{__name__=~".+"}', True),
    ('count by (__name__) ({job=~"a.*|db"})', True),
    ("topk(2, sum by (job, code) (http_requests_total))", True),
    ("max_over_time(sum(memory_bytes)[10m:1m])", True),
    ("memory_bytes offset 5m", True),
    (f"memory_bytes @ {NOW - 3000}", True),
    ("absent(hidden_metric)", False),
    ("absent_over_time(hidden_metric[5m])", False),
    ('label_replace(up, "tenant", "b", "", "")', True),
    ('label_join(up, "tenant", "-", "tenant", "job")', True),
    ('count_values("tenant", memory_bytes)', True),
    ("up or hidden_metric", True),
    ('up{tenant="b"}', True),
    ('up{tenant!="a"}', True),
    ('up{tenant=~".*"}', True),
    ("histogram_quantile(0.9, sum by (le) (rate(request_seconds_bucket[5m])))", True),
    ("time()", True),
    ("vector(1)", True),
    ("up # a comment", True),
    ('group by (tenant, mark, hidden_label) ({__name__!=""})', True),
    ("sum(memory_bytes) / scalar(sum(memory_bytes))", True),
    ("memory_bytes > bool 10", True),
    ("-memory_bytes", True),
    ('memory_bytes unless on (job) up{job="db"}', True),
    ("quantile(0.5, memory_bytes)", True),
    ("avg(delta(memory_bytes[10m]))", True),
    ("stddev by (code) (http_requests_total)", True),
    ("predict_linear(memory_bytes[10m], 60)", True),
    ("count(up) + count(up offset 1m)", True),
    ("sum without (tenant) (up)", True),
    ("timestamp(up)", True),
    ("scalar(count(hidden_metric))", True),
)
MATCH_PATHS = (
    "/api/v1/series",
    "/api/v1/labels",
    "/api/v1/label/__name__/values",
    "/api/v1/label/tenant/values",
    "/api/v1/label/mark/values",
    "/api/v1/label/job/values",
)
SELECTORS_OF_SERIES: Sequence[Sequence[str]] = (
    (),
    ("up",),
    ("up", "hidden_metric"),
    ('{job=~".+"}',),
    ('{tenant="b"}',),
    ('{job="db",tenant!="a"}', "memory_bytes"),
    ('{__name__=~".+"}',),
)
SELECTORS_OF_NOW: Sequence[Sequence[str]] = ((), ("live_gauge",), ('{__name__=~"live.*"}', "hidden_live"), ('{tenant=~".+"}',))
HONEST_EXEMPLARS = ("live_requests_total", '{__name__=~".+"}', "rate(live_requests_total[5m])", 'live_requests_total{tenant="b"}')
# Queries that have another matcher of the tenant's label, or none, and the status where a conflict is an error.
CONFLICTS = (
    ("memory_bytes", 200),
    ('memory_bytes{tenant="a"}', 200),
    ('memory_bytes{tenant="b"}', 400),
    ('sum(rate(http_requests_total{tenant!="b"}[5m]))', 400),
    ('up{tenant=~"a"}', 400),
    ('count_values("tenant", up)', 200),
)

# Queries that name a metric that every tenant sees, and whether the tenant gets what the server gives to the query as it is.
SHARED = (
    ("shared_info", True),
    ('shared_info{tenant="b"}', True),
    ("count(shared_info)", True),
    ("rate(shared_info[5m])", True),
    ("count(memory_bytes)", False),
    ("shared_info * on (tenant) group_right () memory_bytes", False),
    ('{__name__="shared_info"}', False),
    ('{__name__=~"shared_info|hidden_metric"}', False),
)
HONEST_PATHS = ("/api/v1/rules", "/api/v1/rules?type=alert", "/api/v1/rules?type=record", "/api/v1/alerts")

# Queries that want to see what is hidden, by the status that they get.
QUERIES: dict[int, Sequence[str]] = {
    200: (
        'up or {tenant="b"}',
        "hidden_metric",
        '{__name__=~"hidden.*"}',
        'up{tenant!~"a"}',
        '{tenant="",job="api"}',
        'up{tenant="a"} or up{tenant="b"}',
        'up unless up{tenant="a"}',
        'up # {tenant="a"}',
        'up{tenant="b"#}\n}',
        "up{tenant='b'}",
        'up\n{tenant="b"}',
        "up{tenant=`b`}",
        'up{"tenant"="b"}',
        '{"hidden_metric"}',
        r'up{tenant="\x62"}',
        r'up{tenant="\u0062"}',
        r'up{tenant="\142"}',
        'up{tenant="b",tenant="b"}',
        'up{tenant="a",tenant=~"b"}',
        'absent(up{tenant="b"})',
        'absent_over_time(up{tenant="b"}[5m])',
        'count({__name__=~".+"})',
        'topk(100, {__name__=~".+"})',
        'label_replace({__name__=~".+"}, "x", "$1", "mark", "(.*)")',
        'label_join({__name__=~".+"}, "x", "-", "mark", "hidden_label")',
        'count_values("x", {__name__=~".+"})',
        '{__name__=~".+"}[1h]',
        "last_over_time(hidden_metric[1d])",
        "sum_over_time(hidden_metric[1d])",
        f"hidden_metric @ {NOW}",
        "hidden_metric offset 1m",
        "hidden_metric offset -1m",
        "(hidden_metric)[1h:1m]",
        "min_over_time(hidden_metric[1h:1m])",
        "vector(scalar(sum(hidden_metric)))",
        'histogram_quantile(0.9, request_seconds_bucket{tenant="b"})',
        "up * on (job) group_left (mark) hidden_metric",
        "up and on () hidden_metric",
        'up{tenant=~"a|b"}',
        'up{tenant=~"(?i)B"}',
        'up{tenant=~"b|.*"}',
        "-hidden_metric",
        "hidden_metric ^ 1",
        "((((hidden_metric))))",
        "sum(hidden_metric) by (tenant)",
        "quantile(1, hidden_metric)",
        "time() + hidden_metric",
        "timestamp(hidden_metric)",
        "changes(hidden_metric[1h])",
        "ALERTS",
        "hidden_recorded or hidden_live or scrape_samples_scraped",
        'sum by (mark) ({mark!=""})',
        'up{tenant="a\x00b"}',
        'up{tenant="b\u202e"}',
    ),
    400: (
        "",
        "{}",
        '{tenant=""}',
        'up} or {tenant="b"',
        'up{tenant="a"} {tenant="b"}',
        'up; {tenant="b"}',
        "up\x00",
        '\ufeffup{tenant="b"}',
        "up\u202e",
        'up{tenant="b',
        "up{tenant=b}",
        'up{tenant=="b"}',
        'up or {tenant="b"} #\nor',
        "(" * 600 + "hidden_metric" + ")" * 600,
        'up{tenant=~"("}',
        # The server's grammar has no groups in braces, and not these functions.
        'up{tenant="b" or tenant="a"}',
        '{tenant="a" or __name__="hidden_metric"}',
        'info(up, {tenant="b"})',
    ),
    422: (
        "info(up)",
        "sum(info(hidden_metric)) or up",
        'up{tenant=~"b{9999}"}',
        'up{tenant=~"' + "|".join(["\\\\w{90}"] * 40) + '"}',
    ),
}

# What comes after `?` for /api/v1/query, and the status.
PARAMETERS = (
    ("query=up&query=hidden_metric", 400),
    ("query=up&%71uery=hidden_metric", 400),
    ("query=up&qu%65ry=hidden_metric", 400),
    ("query=up;query=hidden_metric", 400),
    ("query=up&Query=hidden_metric", 400),
    ("query=up&query%5B%5D=hidden_metric", 400),
    ("query=up&query%00=hidden_metric", 400),
    ("query=up&match%5B%5D=hidden_metric", 400),
    ("query=up&tenant=b", 400),
    ("query=up&=b", 400),
    ("query=up&time=1&time=2", 400),
    ("query=up&time=" + "1" * 5000, 400),
    ("query=up&time=%ff", 400),
    ("query=up%ff", 400),
    ("query=up%", 400),
    ("query=%u0075p", 400),
    ("query=up&dedup=true", 400),
    ("query=up&storeMatch%5B%5D=b", 400),
    ("query=up&" + "x&" * 1100, 400),
    ("query=up&time=nonsense", 400),
    ("query=up&timeout=nonsense", 400),
    ("query=up&stats=all", 200),
    ("query=hidden_live&stats=all", 200),
)

# Selectors for match[] of /api/v1/series, and the status.
SELECTORS = (
    (("hidden_metric",), 200),
    (('{tenant="b"}',), 200),
    (('{tenant!="a",job="db"}', '{tenant=~".+"}'), 200),
    (('{tenant!="a"}',), 400),
    (('{mark=~".+"}',), 200),
    (('up #"}', '{tenant="b"}'), 200),
    (("{}",), 400),
    (("",), 400),
    (("up", ""), 400),
    (('up or {tenant="b"}',), 400),
    (("sum(hidden_metric)",), 400),
    (("(hidden_metric)",), 400),
    (("hidden_metric[5m]",), 400),
    (("hidden_metric offset 5m",), 400),
    (("hidden_metric @ 1",), 400),
    (('up{tenant="a"', '} or {tenant="b"}'), 400),
    (('up{tenant="a', '"} or {tenant="b"}'), 400),
    (("up", "info(up)"), 422),
    (("up",) * 101, 422),
    (('up{tenant=~"b{900}"}',) * 20, 422),
)

# Selectors for match[] of /api/v1/rules, and the status.
RULE_SELECTORS = (
    ("hidden_recorded", 200),
    ('{tenant="b"}', 200),
    ('{tenant=~".*",severity=~".*x?"}', 400),
    ('{tenant=~".+"}', 200),
    ('{tenant="b" or severity="page"}', 200),
    ("{}", 400),
    ('{tenant="a"} or {tenant="b"}', 400),
    ('{severity=~"("}', 400),
    ('{severity=~"b{9999}"}', 422),
)

# What comes after `?` for /api/v1/metadata, and the status.
METADATA = (
    ("", 200),
    ("metric=hidden_live", 200),
    ("metric=live_gauge", 200),
    ("metric=a&metric=hidden_live", 400),
    ("match_target=%7Btenant%3D%22b%22%7D", 400),
    ("match%5B%5D=%7Btenant%3D%22b%22%7D", 400),
    ("limit=x", 400),
)

# Paths that are not served, or spellings of those that are.
PATHS = """
/ // /graph /metrics /version /config /-/quit /-/reload /-/ready /debug/pprof/heap /consoles/index.html /static/x /classic/graph
/api/v1/admin/tsdb/delete_series /api/v1/admin/tsdb/snapshot /api/v1/admin/tsdb/clean_tombstones
/api/v1/status/config /api/v1/status/flags /api/v1/status/tsdb /api/v1/status/buildinfo/ /api/v1/status/runtimeinfo /api/v1/status/walreplay
/api/v1/targets /api/v1/targets/metadata /api/v1/metadata/ /api/v1/alertmanagers /api/v1/read /api/v1/write /api/v1/format_query/
/api/v1/query/ //api/v1/query /api/v1//query /api/v1/./query /api/v1/label/../query /x/../api/v1/query /api/v1/%71uery /api/v1/query%2f
/api/v1%2fquery /api/v1/query%00 /api/v1/query%3f /api/v1/query;x=1 /API/V1/QUERY /api/v1/Query /api\\v1\\query /api/v1/query%20
/api/v1/label//values /api/v1/label/a/b/values /api/v1/label/a%2fb/values /api/v1/label/%61/values /api/v1/label/../values
/api/v1/label/..%2f..%2fstatus%2fconfig%3f/values /api/v1/label/job/../../status/config/values /api/v1/label/job/values/../../../status/config
/api/v1/label/1a/values /api/v1/label/a.b/values /api/v1/label/job/values/ /federate/ /%66ederate /federate/../api/v1/status/config
/prometheus/api/v1/query /api/v1/rules/ /api/v1/alerts/x /api/v1/series/x
""".split()

# What comes before /api/v1/query where the tenant is in the path, and the status: another server on the way could read some as tenant b.
TENANT_PATHS = (
    ("/tenants/a", 200),
    ("/tenants/a.*", 400),
    ("/tenants/%62", 400),
    ("/tenants/a%2f..%2fb", 400),
    ("/tenants/b%00", 400),
    ("/tenants/b;a", 400),
    ("/tenants/..", 400),
    ("/tenants/a/../b", 404),
    ("/tenants//b", 404),
    ("/tenants/b/", 404),
    ("/tenants/./b", 404),
    ("/Tenants/b", 404),
    ("", 404),
)

METHODS = ("PUT", "DELETE", "HEAD", "OPTIONS", "PATCH", "TRACE", "get", "PROPFIND", "X")

# Headers that take the place of the tenant's, and the status.
HEADERS: Sequence[tuple[tuple[str, ...], int]] = (
    (("X-Tenant: a", "X-Tenant: b"), 400),
    (("X-Tenant: b", "x-tenant: a"), 400),
    (("X-Tenant: a", "X-Tenant: a"), 400),
    (("X-Tenant: a", "X-Tenant:"), 400),
    (("X-Tenant:",), 400),
    (("X-Tenant:  \t",), 400),
    ((), 400),
    (("X_Tenant: b",), 400),
    (("X-Tenant : a",), 400),
    (("X-Tenant: a", "X_Tenant: b", "XTenant: b"), 200),
    (("X-Tenant: a", "X-Scope-OrgID: b", "THANOS-TENANT: b", "Tenant: b"), 200),
    (("X-Tenant: a", "Connection: X-Tenant"), 200),
    (("X-Tenant: a", "X-Original-URL: /api/v1/status/config", "X-Rewrite-URL: /api/v1/status/config"), 200),
    (("X-Tenant: a", "X-HTTP-Method-Override: DELETE"), 200),
    (("X-Tenant: a", "Authorization: Bearer b", "Cookie: tenant=b"), 200),
    (("X-Tenant: a", "Upgrade: websocket", "Connection: Upgrade"), 200),
    (("X-Tenant: a", "Upgrade: h2c", "Connection: Upgrade, HTTP2-Settings", "HTTP2-Settings: x"), 200),
    (("X-Tenant: a", "Range: bytes=0-1"), 200),
    (("X-Tenant: a", "Expect: 100-continue"), 200),
    (("X-Tenant: a", "Accept-Encoding: gzip"), 200),
    (("X-Tenant: a", "X-A: " + "a" * 200_000), 431),
    (('X-Tenant: a"} or {tenant="b',), 200),
    (("X-Tenant: a|b",), 200),
    (("X-Tenant: .*",), 200),
    (("X-Tenant: a,b",), 200),
    (("X-Tenant: \udcff",), 400),
    (("X-Tenant: a\x00",), 400),
    (("X-Tenant: " + "a" * 1025,), 400),
)

FORM = "Content-Type: application/x-www-form-urlencoded"
LIVE = 'query={__name__=~"live.*|hidden.*"}'
SECOND = "GET /api/v1/status/config HTTP/1.1\r\nHost: x\r\n\r\n"
CHUNKS = f"{len(LIVE):x}\r\n{LIVE}\r\n0\r\n\r\n"

# Bodies of a POST to /api/v1/query: its headers, the body as it is, and the status.
BODIES: Sequence[tuple[Sequence[str], str, int]] = (
    ((FORM, f"Content-Length: {len(LIVE)}"), LIVE, 200),
    ((FORM, "Transfer-Encoding: chunked"), CHUNKS, 200),
    ((FORM, "Transfer-Encoding: chunked", "Content-Length: 4"), CHUNKS + SECOND, 200),
    ((FORM, "Content-Length: 4", "Transfer-Encoding: chunked"), CHUNKS + SECOND, 200),
    ((FORM, "Content-Length: 8", "Content-Length: 4"), "query=up", 400),
    ((FORM, "Content-Length: 8, 4"), "query=up", 400),
    ((FORM, "Content-Length: +8"), "query=up", 400),
    ((FORM, "Transfer-Encoding: chunked", "Transfer-Encoding: identity"), CHUNKS, 501),
    ((FORM, "Transfer-Encoding: xchunked", "Content-Length: 8"), "query=up", 501),
    ((FORM, "Transfer-Encoding : chunked"), CHUNKS, 400),
    ((FORM, "Transfer-Encoding: chunked"), "z\r\nquery=up\r\n0\r\n\r\n", 400),
    ((FORM, "Content-Encoding: gzip", "Content-Length: 8"), "query=up", 400),
    ((FORM, FORM.replace("x-www", "x"), "Content-Length: 8"), "query=up", 400),
    (("Content-Type: text/plain", "Content-Length: 8"), "query=up", 400),
    (("Content-Type: application/json", "Content-Length: 14"), '{"query":"up"}', 400),
    (("Content-Type: multipart/form-data; boundary=x", "Content-Length: 72"), '--x\r\nContent-Disposition: form-data; name="query"\r\n\r\nhidden\r\n--x--\r\n      ', 400),
    ((FORM, "Content-Length: 28"), "query=up&query=hidden_metric", 400),
    ((FORM, "Content-Length: 17"), "query=up&tenant=b", 400),
    ((FORM, "Content-Length: 2000006"), "query=" + "a" * 2_000_000, 413),
    ((FORM, f"Content-Length: {len(LIVE)}", "Trailer: X-Tenant"), LIVE, 200),
    ((FORM, "Transfer-Encoding: chunked", "Trailer: X-Tenant"), CHUNKS[:-2] + "X-Tenant: b\r\n\r\n", 200),
)


def head(method: str, target: str, headers: Sequence[str]) -> bytes:
    """The line and the headers of a request, which closes its connection but where headers say something of it."""
    more = [] if any(it.startswith("Connection") for it in headers) else ["Connection: close"]
    return "\r\n".join([f"{method} {target} HTTP/1.1", "Host: x", *more, *headers, "", ""]).encode("utf-8", "surrogateescape")


def hostile_requests(parameters: str = "", headers: Sequence[str] = ("X-Tenant: a",)) -> Iterator[tuple[str, bytes, int]]:
    """Each hostile request: its name, its bytes, and the status that it gets. All addresses begin with these parameters."""
    for status, queries in QUERIES.items():
        for query in queries:
            text = quote_from_bytes(query.encode())
            yield f"query {query[:80]!r}", head("GET", f"/api/v1/query?{parameters}time={NOW}&query={text}", headers), status
            if status == 200 and "[1h]" not in query:
                ranged = f"start={NOW - 600}&end={NOW}&step=60&query={text}".encode()
                line = head("POST", f"/api/v1/query_range?{parameters}", [*headers, FORM, f"Content-Length: {len(ranged)}"])
                yield f"query_range {query[:80]!r}", line + ranged, 400 if query.endswith(":1m]") else status
    for text, status in PARAMETERS:
        yield f"parameters {text[:80]}", head("GET", f"/api/v1/query?{parameters}{text}", headers), status
    for selectors, status in SELECTORS:
        text = "&".join("match%5B%5D=" + quote(it) for it in selectors)
        yield f"selectors {selectors[:3]}", head("GET", f"/api/v1/series?{parameters}{text}", headers), status
    for path in PATHS:
        yield f"path {path}", head("GET", f"{path}?{parameters}query=hidden_live&match[]=hidden_live", headers), 404
    for method in METHODS:
        for path in ("/api/v1/query", "/federate", "/api/v1/rules"):
            yield f"{method} {path}", head(method, f"{path}?{parameters}query=hidden_live", headers), 405
    for path in ("/federate", "/api/v1/rules", "/api/v1/alerts", "/api/v1/metadata", "/api/v1/status/buildinfo"):
        yield f"POST {path}", head("POST", f"{path}?{parameters}", [*headers, "Content-Length: 0"]), 405
    for more, body, status in BODIES:
        yield f"body {more} {body[:40]!r}", head("POST", f"/api/v1/query?{parameters}", [*headers, *more]) + body.encode(), status
    for instead, status in HEADERS:
        target = f"/api/v1/query?{parameters}query={quote(LIVE[6:])}"
        yield f"headers {[it[:60] for it in instead]}", head("GET", target, instead), status
    yield "another address", head("GET", "http://y/api/v1/status/config", headers), 404
    yield "CONNECT", head("CONNECT", "y:80", headers), 404
    yield "alerts of another", head("GET", f"/api/v1/alerts?{parameters}tenant=b", headers), 400
    for text, status in RULE_SELECTORS:
        yield f"rules by {text}", head("GET", f"/api/v1/rules?{parameters}match[]={quote(text)}", headers), status
    for text, status in METADATA:
        yield f"metadata {text}", head("GET", f"/api/v1/metadata?{parameters}{text}", headers), status
    yield "all exemplars", head("GET", f"/api/v1/query_exemplars?{parameters}query=hidden_live+or+live_requests_total&start=0&end=9999999999", headers), 200
    yield "federate all", head("GET", f'/federate?{parameters}match[]={quote(LIVE[6:])}&match[]=%7Btenant="b"%7D', headers), 200
