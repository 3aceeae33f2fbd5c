"""Holds promql-proxy against servers with settings of their own, for bindings/proxy.py: one that asks who the proxy is, and two of targets."""

import contextlib
import json
import shutil
import subprocess
import tempfile
import threading
import time
from collections.abc import Mapping, Sequence
from http.server import BaseHTTPRequestHandler, ThreadingHTTPServer
from pathlib import Path

from proxy_client import HIDDEN, Proxy, check, free_port, get

from compare import Prometheus, Series  # type: ignore[import]

# The password of the user proxy, and its bcrypt hash.
PASSWORD = "word of a"
PASSWORD_HASH = "$2b$04$abcdefghijklmnopqrstuuMPgdu8gU/etKIiayg92X9D7PP3JQ.Zm"


def certificate(folder: Path, name: str) -> tuple[Path, Path]:
    """The files of a certificate of its own authority, for 127.0.0.1, and of its key."""
    made, key = folder / f"{name}.crt", folder / f"{name}.key"
    words = ["openssl", "req", "-x509", "-newkey", "ec", "-pkeyopt", "ec_paramgen_curve:prime256v1", "-nodes", "-days", "1", "-subj", f"/CN={name}"]
    subprocess.run([*words, "-addext", "subjectAltName=IP:127.0.0.1", "-keyout", key, "-out", made], check=True, capture_output=True)
    return made, key


def words_of(options: Mapping[str, object]) -> Sequence[str]:
    """The words of a command line for options and their values."""
    return [str(word) for pair in options.items() for word in pair]


def known_proxies(program: str) -> None:
    """A server that has certificates and passwords answers the proxy that has them, and no other."""
    if shutil.which("openssl") is None:
        print("not tried: a server that wants to know who asks: there is no openssl here")
        return
    with contextlib.ExitStack() as stack:
        folder = Path(stack.enter_context(tempfile.TemporaryDirectory()))
        (server, server_key), (mine, key), (others, others_key) = (certificate(folder, name) for name in ("server", "proxy", "other"))
        (folder / "web.yml").write_text(
            f"tls_server_config: {{cert_file: {server}, key_file: {server_key}, client_auth_type: RequireAndVerifyClientCert, client_ca_file: {mine}}}\n"
            f"basic_auth_users: {{proxy: '{PASSWORD_HASH}'}}\n"
        )
        (folder / "prometheus.yml").write_text("{}\n")
        (folder / "word").write_text(PASSWORD + "\n")
        (folder / "other word").write_text("another word\n")
        port = free_port()
        options = ("--config.file", "prometheus.yml", "--web.config.file", "web.yml", "--storage.tsdb.path", "data")
        behind = subprocess.Popen(
            ["prometheus", *options, f"--web.listen-address=127.0.0.1:{port}"], cwd=folder, stdout=subprocess.DEVNULL, stderr=subprocess.DEVNULL
        )
        stack.callback(behind.wait, 30)
        stack.callback(behind.terminate)
        password: Mapping[str, object] = {"-upstream-user": "proxy", "-upstream-password-file": folder / "word"}
        trust: Mapping[str, object] = {"-upstream-ca-file": server}
        own: Mapping[str, object] = {"-upstream-cert-file": mine, "-upstream-key-file": key}
        proxy = Proxy(program, f"https://127.0.0.1:{port}", "-tenant", "a", *words_of({**password, **trust, **own}))
        found = get(proxy.port, "/api/v1/query", {"query": "vector(1)"}, "Authorization: Basic eDp5")
        check("the proxy that the server knows", found.status == 200 and b'"1"' in found.body, found.body)
        check("the proxy ends", proxy.end()[0] == 0)
        for name, wrong in (
            ("a wrong password", {**password, **trust, **own, "-upstream-password-file": folder / "other word"}),
            ("no password", {**trust, **own}),
            ("the certificate of another", {**password, **trust, "-upstream-cert-file": others, "-upstream-key-file": others_key}),
            ("no certificate", {**password, **trust}),
            ("a server that is not known", {**password, **own}),
        ):
            words = [program, "-upstream", f"https://127.0.0.1:{port}", "-label", "tenant", "-tenant", "a", "-start-timeout", "1s", *words_of(wrong)]
            ended = subprocess.run(words, capture_output=True, timeout=30, check=False)
            check(f"{name}: the proxy does not start", ended.returncode == 1 and PASSWORD.encode() not in ended.stderr, ended)


# ---- targets of tenants


class Targets(BaseHTTPRequestHandler):
    """Shows the metrics of a target of the tenant that the path names."""

    def do_GET(self) -> None:
        """Answers."""
        mine = self.path == "/a"
        own = "a_gauge 1" if mine else "# HELP hidden_gauge a help\nhidden_gauge 1"
        text = f"# HELP both_gauge {'of a' if mine else 'hidden help'}\n# TYPE both_gauge gauge\nboth_gauge 1\n# TYPE a_gauge gauge\n{own}\n".encode()
        self.send_response(200)
        self.send_header("Content-Type", "text/plain")
        self.send_header("Content-Length", str(len(text)))
        self.end_headers()
        self.wfile.write(text)

    def log_message(self, *_: object) -> None:
        """Says nothing."""


def metadata_of_targets(program: str) -> None:
    """What is said of metrics is what the targets of the tenant say, whatever others say of a metric of the same name."""
    with contextlib.ExitStack() as stack:
        folder = Path(stack.enter_context(tempfile.TemporaryDirectory()))
        targets = ThreadingHTTPServer(("127.0.0.1", 0), Targets)
        threading.Thread(target=targets.serve_forever, daemon=True).start()
        stack.callback(targets.shutdown)
        found = []
        for tenants in ("a", "b"), ("a",):
            text = "global: {scrape_interval: 1s}\nscrape_configs:\n" + "".join(
                f"- job_name: {it}\n  metrics_path: /{it}\n  static_configs:\n  - targets: ['127.0.0.1:{targets.server_port}']\n    labels: {{tenant: {it}}}\n"
                for it in tenants
            )
            server = Prometheus(folder / "".join(tenants), [Series("up", {}, [1] * 240)], text)
            stack.callback(server.end)
            for _ in range(200):
                if len(json.loads(server.get("/api/v1/targets/metadata?metric=both_gauge")[1]).get("data", ())) == len(tenants):
                    break
                time.sleep(0.1)
            proxy = Proxy(program, f"http://127.0.0.1:{server.port}", "-tenant", "a")
            stack.callback(proxy.end)
            asked: Sequence[Mapping[str, object]] = ({}, {"metric": "both_gauge"}, {"metric": "hidden_gauge"}, {"limit": 1}, {"limit_per_metric": 1})
            found.append([get(proxy.port, "/api/v1/metadata", it).body for it in asked])
            alone = server.get("/api/v1/metadata")[1]
        check("metadata: one answer whatever others have", found[0] == found[1], found)
        check("metadata: nothing of others", not HIDDEN.search(b"".join(found[0])), found)
        check("metadata: as the tenant's own server", json.loads(found[0][0]) == json.loads(alone) and b"of a" in found[0][1], (found, alone))
