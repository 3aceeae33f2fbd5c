// Starts the language server for queries, rule files and dashboards (docs/guide/editor.md).
"use strict";

const { workspace } = require("vscode");
const { LanguageClient } = require("vscode-languageclient/node");

let client;

async function activate() {
  const settings = workspace.getConfiguration("promql");
  const [command, ...args] = settings.get("command");
  const documentSelector = [{ language: "promql" }, { language: "yaml" }, { language: "json" }];
  const initializationOptions = { lint: settings.get("lint"), style: settings.get("style") };
  client = new LanguageClient("promql", "PromQL", { command, args }, { documentSelector, initializationOptions });
  await client.start();
}

async function deactivate() {
  if (client) {
    await client.stop();
  }
}

module.exports = { activate, deactivate };
