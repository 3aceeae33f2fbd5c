"""A client of the language server, over pipes."""

import json
import os
import queue
import subprocess
import sys
import threading
from pathlib import Path

PACKAGE = Path(__import__("promql").__file__).resolve().parents[1]


class Refused(Exception):
    def __init__(self, error):
        super().__init__(error["message"])
        self.code = error["code"]


class Client:
    """Starts a server, and ends it. It shows no findings of the linter where nothing else is asked for."""

    def __init__(self, *arguments, initialize=True, snippets=True, options={"lint": False}, folder=None, resolves=True):
        environment = {**os.environ, "PYTHONPATH": str(PACKAGE)}
        command = [sys.executable, "-m", "promql", "lsp", *arguments]
        self.process = subprocess.Popen(
            command, stdin=subprocess.PIPE, stdout=subprocess.PIPE, stderr=subprocess.PIPE, env=environment
        )
        self.messages = queue.Queue()
        self.said = []
        self.answers = {}
        self.diagnostics = {}
        self.number = 0
        threading.Thread(target=self._read, daemon=True).start()
        self.listener = threading.Thread(target=self._listen, daemon=True)
        self.listener.start()
        if initialize:
            item = {"completionItem": {"snippetSupport": snippets}}
            about = {"completion": item, "codeAction": {"resolveSupport": {"properties": ["edit"] * resolves}}}
            params = {"capabilities": {"textDocument": about}, "initializationOptions": options}
            params["rootUri"] = folder and Path(folder).as_uri()
            self.capabilities = self.request("initialize", params)["capabilities"]
            self.notify("initialized", {})

    def _read(self):
        stream = self.process.stdout
        while True:
            length = None
            while True:
                line = stream.readline()
                if not line:
                    self.messages.put(None)
                    return
                if line == b"\r\n":
                    break
                name, value = line.split(b":")
                if name == b"Content-Length":
                    length = int(value)
            self.messages.put(json.loads(stream.read(length)))

    def _listen(self):
        self.said += self.process.stderr

    def send(self, message):
        self.write(json.dumps({"jsonrpc": "2.0", **message}).encode())

    def write(self, body):
        self.process.stdin.write(b"Content-Length: %d\r\n\r\n%s" % (len(body), body))
        self.process.stdin.flush()

    def notify(self, method, params):
        self.send({"method": method, "params": params})

    def begin(self, method, params):
        self.number += 1
        self.send({"id": self.number, "method": method, "params": params})
        return self.number

    def request(self, method, params, seconds=30):
        return self.result(self.begin(method, params), seconds)

    def result(self, number, seconds=30):
        while number not in self.answers:
            self.take(seconds)
        answer = self.answers.pop(number)
        if "error" in answer:
            raise Refused(answer["error"])
        return answer["result"]

    def take(self, seconds=30):
        """Takes the next message."""
        message = self.messages.get(timeout=seconds)
        if message is None:
            raise EOFError("the server ended")
        if message.get("method") == "textDocument/publishDiagnostics":
            params = message["params"]
            self.diagnostics[params["uri"]] = (params.get("version"), params["diagnostics"])
        else:
            self.answers[message["id"]] = message
        return message

    def wait_for_diagnostics(self, uri, version, seconds=30):
        while self.diagnostics.get(uri, (None,))[0] != version:
            self.take(seconds)
        return self.diagnostics[uri][1]

    def open(self, uri, text, language="promql", version=1):
        item = {"uri": uri, "languageId": language, "version": version, "text": text}
        self.notify("textDocument/didOpen", {"textDocument": item})
        return self.wait_for_diagnostics(uri, version)

    def change(self, uri, version, *changes):
        self.notify("textDocument/didChange", {"textDocument": {"uri": uri, "version": version}, "contentChanges": list(changes)})

    def at(self, method, uri, line, character, **more):
        params = {"textDocument": {"uri": uri}, "position": {"line": line, "character": character}, **more}
        return self.request(f"textDocument/{method}", params)

    def close(self):
        """Ends the server, and returns its status."""
        self.request("shutdown", None)
        self.notify("exit", None)
        return self.ended()

    def ended(self):
        try:
            self.process.stdin.close()
        except OSError:
            pass
        status = self.process.wait(timeout=30)
        self.process.stdout.close()
        self.listener.join(10)
        self.process.stderr.close()
        return status
