// Runs the extension of editors/vscode without VS Code: its two modules are stand-ins, and the client starts the server, opens a query and
// asks for its layout. Usage: node lsp_vscode.js EXTENSION. The last line is 'N passed, M failed'.
"use strict";

const { spawn } = require("node:child_process");
const Module = require("node:module");
const path = require("node:path");

const extension = path.resolve(process.argv[2]);
const manifest = require(path.join(extension, "package.json"));
const settings = manifest.contributes.configuration.properties;
const counts = { passed: 0, failed: 0 };

function check(name, isSo, found) {
  counts[isSo ? "passed" : "failed"] += 1;
  if (!isSo) console.log(`FAILED ${name}: ${JSON.stringify(found)}`);
}

// What the extension asks of `vscode`: the settings, by their defaults.
const vscode = {
  workspace: { getConfiguration: (section) => ({ get: (name) => settings[`${section}.${name}`].default }) },
};

// What it asks of `vscode-languageclient/node`: a client with the messages of the protocol.
class LanguageClient {
  constructor(id, name, server, options) {
    Object.assign(this, { id, name, server, options, answers: new Map(), number: 0, text: Buffer.alloc(0) });
    LanguageClient.made = this;
  }

  async start() {
    this.process = spawn(this.server.command, this.server.args, { stdio: ["pipe", "pipe", "inherit"] });
    this.process.stdout.on("data", (data) => this.read(data));
    this.diagnostics = new Promise((resolve) => (this.onDiagnostics = resolve));
    const { initializationOptions } = this.options;
    const capabilities = { textDocument: { codeAction: { resolveSupport: { properties: ["edit"] } } } };
    this.server = await this.ask("initialize", { processId: process.pid, rootUri: null, capabilities, initializationOptions });
    this.tell("initialized", {});
  }

  async stop() {
    await this.ask("shutdown", null);
    const ended = new Promise((resolve) => this.process.on("exit", resolve));
    this.tell("exit", null);
    this.status = await ended;
  }

  read(data) {
    this.text = Buffer.concat([this.text, data]);
    for (;;) {
      const head = this.text.indexOf("\r\n\r\n");
      if (head < 0) return;
      const length = Number(/content-length: *(\d+)/i.exec(this.text.subarray(0, head))[1]);
      if (this.text.length < head + 4 + length) return;
      const message = JSON.parse(this.text.subarray(head + 4, head + 4 + length));
      this.text = this.text.subarray(head + 4 + length);
      if (message.method === "textDocument/publishDiagnostics") this.onDiagnostics(message.params.diagnostics, message.params.uri);
      if (!message.method) this.answers.get(message.id)(message.result);
    }
  }

  send(message) {
    const body = JSON.stringify({ jsonrpc: "2.0", ...message });
    this.process.stdin.write(`Content-Length: ${Buffer.byteLength(body)}\r\n\r\n${body}`);
  }

  tell(method, params) {
    this.send({ method, params });
  }

  ask(method, params) {
    const id = (this.number += 1);
    this.send({ id, method, params });
    return new Promise((resolve) => this.answers.set(id, resolve));
  }
}

const standIns = { vscode, "vscode-languageclient/node": { LanguageClient } };
const load = Module._load;
Module._load = (name, ...rest) => standIns[name] || load(name, ...rest);

// A dashboard has its messages, an outline, and the fixes that are made when a file is saved (`source.fixAll`).
async function testDashboard(client) {
  const textDocument = { uri: "file:///board.json" };
  const text = '{"panels": [{"title": "Up", "targets": [{"expr": "sum(up{job=~\\"shop\\"})"}]}]}\n';
  const told = new Promise((resolve) => (client.onDiagnostics = (found, uri) => uri === textDocument.uri && resolve(found)));
  client.tell("textDocument/didOpen", { textDocument: { ...textDocument, languageId: "json", version: 1, text } });
  const found = await told;
  check("a finding in a dashboard", found.some((it) => it.code === "P103"), found);
  const symbols = await client.ask("textDocument/documentSymbol", { textDocument });
  check("an outline", symbols.map((it) => it.name).join() === "Up", symbols);
  const range = { start: { line: 0, character: 0 }, end: { line: 1, character: 0 } };
  const [action] = await client.ask("textDocument/codeAction", { textDocument, range, context: { diagnostics: [], only: ["source.fixAll"] } });
  const { edit } = await client.ask("codeAction/resolve", action);
  const [{ range: place, newText }] = edit.changes[textDocument.uri];
  check("a fix", text.slice(0, place.start.character) + newText + text.slice(place.end.character) === text.replace("=~", "="), edit);
}

async function main() {
  const { activate, deactivate } = require(path.join(extension, manifest.main));
  await activate();
  const client = LanguageClient.made;
  const languages = client.options.documentSelector.map((it) => it.language);
  check("the languages that start it", languages.every((it) => manifest.activationEvents.includes(`onLanguage:${it}`)), languages);
  check("the server", client.server.capabilities.documentFormattingProvider === true, client.server);
  const textDocument = { uri: "file:///query.promql" };
  client.tell("textDocument/didOpen", { textDocument: { ...textDocument, languageId: "promql", version: 1, text: "rate(up)\n" } });
  const found = await client.diagnostics;
  check("a diagnostic", found.some((it) => it.message.includes("expected type matrix")), found);
  const text = "sum(rate(up[5m]))by(job)\n";
  client.tell("textDocument/didChange", { textDocument: { ...textDocument, version: 2 }, contentChanges: [{ text }] });
  const edits = await client.ask("textDocument/formatting", { textDocument, options: { tabSize: 2, insertSpaces: true } });
  check("a layout", edits.map((it) => it.newText).join("").trim() === "sum by (job) (rate(up[5m]))", edits);
  await testDashboard(client);
  await deactivate();
  check("the server's end", client.status === 0, client.status);
  console.log(`${counts.passed} passed, ${counts.failed} failed`);
  process.exit(counts.failed ? 1 : 0);
}

main();
