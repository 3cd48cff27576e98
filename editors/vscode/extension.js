// Checks a specification when it is opened or saved. `spike check` writes the first fault, `tools/where` its place and
// its cure, and of a text that is accepted `tools/where --warn` shows variables that look like a symbol.
"use strict";

const { execFile } = require("child_process");
const vscode = require("vscode");

const MILLISECONDS = 60000;
const PLACE = /^.*:(\d+):(\d+):.*$/;
const CURE = /^ {2}cure: (.*)$/;

/** The places of what `tools/where` has written, each with its cure or "", lines and columns from 1. */
function placesOf(text) {
  const found = [];
  for (const line of text.split("\n")) {
    const place = line.startsWith("  ") ? null : PLACE.exec(line);
    const cure = CURE.exec(line);
    if (place) {
      found.push({ line: Number(place[1]), column: Number(place[2]), cure: "" });
    } else if (cure && found.length > 0) {
      found[found.length - 1].cure = cure[1];
    }
  }
  return found;
}

/** What a command writes, with some bytes as its input; "" where there is no such command. */
function written(command, words, input) {
  return new Promise((resolve) => {
    const child = execFile(command, words, { timeout: MILLISECONDS }, (_, output) => resolve(output || ""));
    child.stdin.on("error", () => {});
    child.stdin.end(input);
  });
}

/** The range of the word at a place. A column counts characters, and the editor counts units of UTF-16. */
function rangeOf(document, place) {
  const number = Math.min(place.line, document.lineCount) - 1;
  const text = document.lineAt(number).text;
  const begin = Array.from(text).slice(0, place.column - 1).join("").length;
  const word = /^\w+/u.exec(text.slice(begin));
  return new vscode.Range(number, begin, number, begin + (word ? word[0].length : 1));
}

/** The diagnostics of a document by what the program and `tools/where` say of its file. */
async function diagnosticsOf(document) {
  const settings = vscode.workspace.getConfiguration("spike");
  const where = settings.get("where");
  const answer = await written(settings.get("command"), ["check", document.fileName], "");
  const refused = answer.startsWith("refused");
  const words = refused ? [document.fileName] : ["--warn", document.fileName];
  const severity = refused ? vscode.DiagnosticSeverity.Error : vscode.DiagnosticSeverity.Warning;
  const shown = answer === "" ? "" : await written(where, words, answer);
  const line = refused ? answer.trim() : "";
  const found = placesOf(shown).map((place) => {
    const message = [line, place.cure].filter(Boolean).join("\n");
    return new vscode.Diagnostic(rangeOf(document, place), message, severity);
  });
  if (refused && found.length === 0) {
    found.push(new vscode.Diagnostic(new vscode.Range(0, 0, 0, 1), line, severity));
  }
  return found;
}

function activate(context) {
  const collection = vscode.languages.createDiagnosticCollection("spike");
  const look = async (document) => {
    if (document.languageId === "spike") {
      collection.set(document.uri, await diagnosticsOf(document));
    }
  };
  context.subscriptions.push(
    collection,
    vscode.workspace.onDidOpenTextDocument(look),
    vscode.workspace.onDidSaveTextDocument(look),
    vscode.workspace.onDidCloseTextDocument((document) => collection.delete(document.uri)),
  );
  vscode.workspace.textDocuments.forEach(look);
}

function deactivate() {}

module.exports = { activate, deactivate, diagnosticsOf, placesOf };
