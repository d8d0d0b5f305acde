// Starts the language server, tools/lsp, and hands it what the editor asks. It needs nothing but the editor and the server.
'use strict';
const fs = require('fs');
const path = require('path');
const { spawn } = require('child_process');
const vscode = require('vscode');

const LANGUAGES = ['scr', 'scrassert', 'scrscript'];

// The server: as set, packed with this folder, or in the repository that this folder is linked from.
function serverPath(settings) {
  const here = fs.realpathSync(__dirname);
  const places = [settings.get('server'), path.join(here, 'server', 'lsp'), path.join(here, '..', '..', 'tools', 'lsp')];
  return places.find((it) => it && fs.existsSync(it));
}

// A server that is running: messages go out by ask and notify, and come in by name.
class Server {
  constructor(command, onNotice, onEnd) {
    this.number = 0;
    this.waiting = new Map();
    this.input = Buffer.alloc(0);
    this.onNotice = onNotice;
    this.process = spawn('python3', [command], { stdio: ['pipe', 'pipe', 'inherit'] });
    this.process.on('error', onEnd);
    this.process.on('exit', onEnd);
    this.process.stdin.on('error', () => {});
    this.process.stdout.on('data', (data) => this.take(data));
  }

  send(message) {
    const body = Buffer.from(JSON.stringify({ jsonrpc: '2.0', ...message }));
    this.process.stdin.write(`Content-Length: ${body.length}\r\n\r\n`);
    this.process.stdin.write(body);
  }

  notify(method, params) {
    this.send({ method, params });
  }

  ask(method, params) {
    const id = ++this.number;
    this.send({ id, method, params });
    return new Promise((resolve) => this.waiting.set(id, resolve));
  }

  take(data) {
    this.input = Buffer.concat([this.input, data]);
    for (;;) {
      const end = this.input.indexOf('\r\n\r\n');
      const head = end < 0 ? null : /Content-Length: (\d+)/.exec(this.input.toString('latin1', 0, end));
      if (!head || this.input.length < end + 4 + Number(head[1])) return;
      const body = this.input.subarray(end + 4, end + 4 + Number(head[1]));
      this.input = this.input.subarray(end + 4 + Number(head[1]));
      const message = JSON.parse(body.toString());
      if (message.method) this.onNotice(message.method, message.params);
      else if (this.waiting.has(message.id)) {
        this.waiting.get(message.id)(message.result || null);
        this.waiting.delete(message.id);
      }
    }
  }

  leave() {
    this.ask('shutdown', {}).then(() => this.notify('exit', {}));
  }
}

const toRange = (it) => new vscode.Range(it.start.line, it.start.character, it.end.line, it.end.character);
const toLocation = (it) => new vscode.Location(vscode.Uri.parse(it.uri), toRange(it.range));
const named = (document) => ({ uri: document.uri.toString() });
const at = (document, position) => ({
  textDocument: named(document),
  position: { line: position.line, character: position.character },
});

function toDiagnostic(it) {
  const found = new vscode.Diagnostic(toRange(it.range), it.message, it.severity - 1);
  found.source = it.source;
  found.code = it.code;
  found.relatedInformation = (it.relatedInformation || []).map(
    (of) => new vscode.DiagnosticRelatedInformation(toLocation(of.location), of.message),
  );
  return found;
}

function toSymbol(it) {
  const symbol = new vscode.DocumentSymbol(it.name, it.detail, it.kind - 1, toRange(it.range), toRange(it.selectionRange));
  symbol.children = (it.children || []).map(toSymbol);
  return symbol;
}

function toItem(it) {
  const item = new vscode.CompletionItem(it.label, it.kind - 1);
  item.detail = it.detail;
  return item;
}

// Hands the server each text of these languages, and what is asked of it.
function connect(server, subscriptions) {
  const isOurs = (document) => LANGUAGES.includes(document.languageId);
  const open = (it) => isOurs(it) && server.notify('textDocument/didOpen', {
    textDocument: { ...named(it), languageId: it.languageId, version: it.version, text: it.getText() },
  });
  const ask = (method, convert) => async (document, position) => {
    const result = await server.ask(`textDocument/${method}`, position.line === undefined ? { textDocument: named(document), options: {} }
      : at(document, position));
    return result && convert(result);
  };
  const all = (convert) => (list) => list.map(convert);
  const { languages, workspace } = vscode;
  subscriptions.push(
    workspace.onDidOpenTextDocument(open),
    workspace.onDidChangeTextDocument(({ document }) => isOurs(document) && server.notify('textDocument/didChange', {
      textDocument: { ...named(document), version: document.version }, contentChanges: [{ text: document.getText() }],
    })),
    workspace.onDidCloseTextDocument((it) => isOurs(it) && server.notify('textDocument/didClose', { textDocument: named(it) })),
    languages.registerHoverProvider(LANGUAGES, {
      provideHover: ask('hover', (it) => new vscode.Hover(new vscode.MarkdownString(it.contents.value), toRange(it.range))),
    }),
    languages.registerDefinitionProvider(LANGUAGES, { provideDefinition: ask('definition', toLocation) }),
    languages.registerReferenceProvider(LANGUAGES, { provideReferences: ask('references', all(toLocation)) }),
    languages.registerDocumentSymbolProvider(LANGUAGES, { provideDocumentSymbols: ask('documentSymbol', all(toSymbol)) }),
    languages.registerCompletionItemProvider(LANGUAGES, { provideCompletionItems: ask('completion', all(toItem)) }),
    languages.registerDocumentFormattingEditProvider(LANGUAGES, {
      provideDocumentFormattingEdits: ask('formatting', all((it) => vscode.TextEdit.replace(toRange(it.range), it.newText))),
    }),
    { dispose: () => server.leave() },
  );
  workspace.textDocuments.forEach(open);
}

async function activate(context) {
  const settings = vscode.workspace.getConfiguration('scr');
  const command = serverPath(settings);
  if (!command) {
    vscode.window.showWarningMessage('scr: there is no language server: set scr.server to the path of tools/lsp');
    return;
  }
  const told = vscode.languages.createDiagnosticCollection('scr');
  context.subscriptions.push(told);
  let isLeaving = false;
  const server = new Server(command, (method, params) => {
    if (method === 'textDocument/publishDiagnostics') told.set(vscode.Uri.parse(params.uri), params.diagnostics.map(toDiagnostic));
    if (method === 'window/showMessage') vscode.window.showWarningMessage(params.message);
  }, () => isLeaving || vscode.window.showWarningMessage('scr: the language server has ended; it needs python3'));
  context.subscriptions.push({ dispose: () => { isLeaving = true; } });
  await server.ask('initialize', {
    capabilities: {}, processId: process.pid, rootUri: null,
    initializationOptions: { program: settings.get('program'), columns: settings.get('columns') },
  });
  connect(server, context.subscriptions);
}

module.exports = { activate, deactivate() {} };
