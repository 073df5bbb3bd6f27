// Starts `milkhour lsp` for programs and proofs. To set it up: `npm install` in this folder, and then put the folder, or a link to it,
// into `~/.vscode/extensions`.
"use strict";

const { workspace } = require("vscode");
const { LanguageClient } = require("vscode-languageclient/node");

let client;

exports.activate = () => {
  const command = workspace.getConfiguration("milkhour").get("path", "milkhour");
  const documentSelector = ["spl", "splproof"].map((language) => ({ scheme: "file", language }));
  client = new LanguageClient("milkhour", "Milkhour", { command, args: ["lsp"] }, { documentSelector });
  return client.start();
};

exports.deactivate = () => client?.stop();
