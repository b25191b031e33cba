// VS Code's client for `autolock lsp`.
"use strict";

const { workspace } = require("vscode");
const { LanguageClient, TransportKind } = require("vscode-languageclient/node");

let client;

function activate() {
  const [command, ...words] = workspace.getConfiguration("autolock").get("command");
  const server = { command, args: [...words, "lsp"], transport: TransportKind.stdio };
  client = new LanguageClient("autolock", "autolock", server, {
    documentSelector: [{ language: "autolock" }],
  });
  return client.start();
}

function deactivate() {
  return client ? client.stop() : undefined;
}

module.exports = { activate, deactivate };
