// Robots in Visual Studio Code: a client of crobots-lsp without a library, and the place of the debug adapter crobots-dap.
'use strict';
const vscode = require('vscode');
const { spawn } = require('child_process');

const SELECTOR = { language: 'crobots' };

/** A running server: requests and their answers, framed by their length. */
class Server {
  constructor(command, notified) {
    this.number = 0;
    this.waits = new Map();
    this.notified = notified;
    this.rest = Buffer.alloc(0);
    this.child = spawn(command, [], { stdio: ['pipe', 'pipe', 'inherit'] });
    this.child.stdout.on('data', (piece) => this.read(piece));
    this.child.on('error', (why) => vscode.window.showErrorMessage(`${command}: ${why.message}`));
    this.child.on('exit', () => this.waits.forEach((wait) => wait({ error: { message: `${command} ended` } })));
  }

  send(message) {
    const body = Buffer.from(JSON.stringify({ jsonrpc: '2.0', ...message }));
    this.child.stdin.write(`Content-Length: ${body.length}\r\n\r\n`);
    this.child.stdin.write(body);
  }

  notify(method, params) {
    this.send({ method, params });
  }

  ask(method, params) {
    const id = ++this.number;
    this.send({ id, method, params });
    return new Promise((resolve, reject) => {
      this.waits.set(id, (answer) => (answer.error ? reject(new Error(answer.error.message)) : resolve(answer.result)));
    });
  }

  read(piece) {
    this.rest = Buffer.concat([this.rest, piece]);
    for (;;) {
      const end = this.rest.indexOf('\r\n\r\n');
      const length = end < 0 ? 0 : Number(/Content-Length: (\d+)/i.exec(this.rest.toString('latin1', 0, end))[1]);
      if (end < 0 || this.rest.length < end + 4 + length) return;
      const message = JSON.parse(this.rest.toString('utf8', end + 4, end + 4 + length));
      this.rest = this.rest.subarray(end + 4 + length);
      if (message.method) this.notified(message);
      else {
        const wait = this.waits.get(message.id);
        this.waits.delete(message.id);
        if (wait) wait(message);
      }
    }
  }
}

const position = (it) => new vscode.Position(it.line, it.character);
const range = (it) => new vscode.Range(position(it.start), position(it.end));
const plain = (it) => ({ line: it.line, character: it.character });
const plainRange = (it) => ({ start: plain(it.start), end: plain(it.end) });
const spot = (document, at) => ({ textDocument: { uri: document.uri.toString() }, position: plain(at) });
const whole = (document) => ({ textDocument: { uri: document.uri.toString() } });
const markdown = (it) => new vscode.MarkdownString(it.value);
const location = (it) => new vscode.Location(vscode.Uri.parse(it.uri), range(it.range));

function edits(changes) {
  const made = new vscode.WorkspaceEdit();
  for (const [uri, list] of Object.entries(changes)) {
    for (const it of list) made.replace(vscode.Uri.parse(uri), range(it.range), it.newText);
  }
  return made;
}

function diagnostic(it) {
  const made = new vscode.Diagnostic(range(it.range), it.message, it.severity - 1);
  made.code = { value: it.code, target: vscode.Uri.parse(it.codeDescription.href) };
  made.source = it.source;
  return made;
}

function item(it) {
  const made = new vscode.CompletionItem(it.label, it.kind - 1);
  made.detail = it.detail;
  if (it.documentation) made.documentation = markdown(it.documentation);
  if (it.insertText) made.insertText = it.insertTextFormat === 2 ? new vscode.SnippetString(it.insertText) : it.insertText;
  return made;
}

function signature(it) {
  const help = new vscode.SignatureHelp();
  help.signatures = it.signatures.map((one) => {
    const made = new vscode.SignatureInformation(one.label, one.documentation && markdown(one.documentation));
    made.parameters = one.parameters.map((parameter) => new vscode.ParameterInformation(parameter.label));
    return made;
  });
  [help.activeSignature, help.activeParameter] = [it.activeSignature, it.activeParameter];
  return help;
}

function action(it) {
  const made = new vscode.CodeAction(it.title, vscode.CodeActionKind.QuickFix);
  made.edit = edits(it.edit.changes);
  return made;
}

function hint(it) {
  const made = new vscode.InlayHint(position(it.position), it.label);
  made.paddingLeft = it.paddingLeft;
  return made;
}

/** What the editor asks, and how its questions are those of the protocol. The kinds of tokens are those that the server says. */
function providers(server, { legend }) {
  const ask = (method, params, made) => server.ask(`textDocument/${method}`, params).then((it) => (it ? made(it) : undefined));
  const all = (made) => (list) => list.map(made);
  const l = vscode.languages;
  return [
    l.registerCompletionItemProvider(SELECTOR, { provideCompletionItems: (d, at) => ask('completion', spot(d, at), (it) => it.items.map(item)) }),
    l.registerSignatureHelpProvider(SELECTOR, { provideSignatureHelp: (d, at) => ask('signatureHelp', spot(d, at), signature) }, '(', ','),
    l.registerHoverProvider(SELECTOR, { provideHover: (d, at) => ask('hover', spot(d, at), (it) => new vscode.Hover(markdown(it.contents), range(it.range))) }),
    l.registerDefinitionProvider(SELECTOR, { provideDefinition: (d, at) => ask('definition', spot(d, at), location) }),
    l.registerReferenceProvider(SELECTOR, { provideReferences: (d, at, context) => ask('references', { ...spot(d, at), context }, all(location)) }),
    l.registerDocumentHighlightProvider(SELECTOR, { provideDocumentHighlights: (d, at) =>
      ask('documentHighlight', spot(d, at), all((it) => new vscode.DocumentHighlight(range(it.range)))) }),
    l.registerRenameProvider(SELECTOR, {
      prepareRename: (d, at) => ask('prepareRename', spot(d, at), (it) => ({ range: range(it.range), placeholder: it.placeholder })),
      provideRenameEdits: (d, at, newName) => ask('rename', { ...spot(d, at), newName }, (it) => edits(it.changes)),
    }),
    l.registerDocumentSymbolProvider(SELECTOR, { provideDocumentSymbols: (d) =>
      ask('documentSymbol', whole(d), all((it) => new vscode.DocumentSymbol(it.name, '', it.kind - 1, range(it.range), range(it.selectionRange)))) }),
    l.registerFoldingRangeProvider(SELECTOR, { provideFoldingRanges: (d) =>
      ask('foldingRange', whole(d), all((it) => new vscode.FoldingRange(it.startLine, it.endLine))) }),
    l.registerCodeActionsProvider(SELECTOR, { provideCodeActions: (d, where) =>
      ask('codeAction', { ...whole(d), range: plainRange(where), context: { diagnostics: [] } }, all(action)) }),
    l.registerDocumentSemanticTokensProvider(SELECTOR, { provideDocumentSemanticTokens: (d) =>
      ask('semanticTokens/full', whole(d), (it) => new vscode.SemanticTokens(new Uint32Array(it.data))) },
    new vscode.SemanticTokensLegend(legend.tokenTypes, legend.tokenModifiers)),
    l.registerInlayHintsProvider(SELECTOR, { provideInlayHints: (d, where) => ask('inlayHint', { ...whole(d), range: plainRange(where) }, all(hint)) }),
  ];
}

function activate(context) {
  const found = vscode.languages.createDiagnosticCollection('crobots');
  const server = new Server('crobots-lsp', ({ method, params }) => {
    if (method === 'textDocument/publishDiagnostics') found.set(vscode.Uri.parse(params.uri), params.diagnostics.map(diagnostic));
    if (method === 'window/showMessage') vscode.window.showInformationMessage(params.message);
    if (method === 'window/showDocument') vscode.env.openExternal(vscode.Uri.parse(params.uri));
  });
  const settings = () => {
    const given = vscode.workspace.getConfiguration('crobots');
    return { profile: given.get('profile', 1), inlayHints: given.get('inlayHints', false) };
  };
  const capabilities = { textDocument: { completion: { completionItem: { snippetSupport: true } } }, window: { showDocument: { support: true } } };
  const ready = server.ask('initialize', { processId: process.pid, rootUri: null, capabilities,
    initializationOptions: settings() });
  const isRobot = (document) => document.languageId === 'crobots';
  const open = (document) => isRobot(document) && server.notify('textDocument/didOpen', { textDocument:
    { uri: document.uri.toString(), languageId: 'crobots', version: document.version, text: document.getText() } });
  const change = ({ document, contentChanges }) => isRobot(document) && server.notify('textDocument/didChange', { textDocument:
    { uri: document.uri.toString(), version: document.version }, contentChanges: contentChanges.map((it) => ({ range: plainRange(it.range), text: it.text })) });
  const close = (document) => isRobot(document) && server.notify('textDocument/didClose', whole(document));
  const command = (name) => vscode.commands.registerCommand(name, () =>
    server.ask('workspace/executeCommand', { command: name, arguments: [vscode.window.activeTextEditor.document.uri.toString()] }));
  return ready.then((answer) => {
    vscode.workspace.textDocuments.forEach(open);
    context.subscriptions.push(found, ...providers(server, answer.capabilities.semanticTokensProvider), command('crobots.play'), command('crobots.replay'),
      vscode.workspace.onDidOpenTextDocument(open), vscode.workspace.onDidChangeTextDocument(change),
      vscode.workspace.onDidCloseTextDocument(close), vscode.workspace.onDidChangeConfiguration(() =>
        server.notify('workspace/didChangeConfiguration', { settings: settings() })), { dispose: () => server.child.stdin.end() },
      vscode.debug.registerDebugAdapterDescriptorFactory('crobots', { createDebugAdapterDescriptor: () =>
        new vscode.DebugAdapterExecutable('crobots-dap', []) }));
  });
}

module.exports = { activate, deactivate: () => undefined, Server };
