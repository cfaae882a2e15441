// Compares scripts two by two: whether each name of one means in the other what it means there, whatever variables are called. Each line
// that it reads has the paths of two scripts; of each pair it writes a line: what is the first difference, or nothing. What a name
// means is worked out by TypeScript.
import {readFileSync} from "node:fs";
import {createRequire} from "node:module";

const ts = createRequire(import.meta.url)("/usr/share/nodejs/typescript");
const OPTIONS = {allowJs: true, noLib: true, noResolve: true, target: ts.ScriptTarget.ES2022, types: []};

/** Whether a name is no variable's: that of a property, or of a label. */
function isKey({parent}, node) {
    return ts.isPropertyAccessExpression(parent) && parent.name === node
        || (ts.isPropertyAssignment(parent) || ts.isMethodDeclaration(parent) || ts.isPropertyDeclaration(parent) || ts.isAccessor(parent)) && parent.name === node
        || ts.isBindingElement(parent) && parent.propertyName === node
        || ts.isBreakOrContinueStatement(parent) || ts.isLabeledStatement(parent) || ts.isMetaProperty(parent);
}

/** What a script's names mean, one after another, with all else that it is made of: a variable is a number. */
function meanings(path) {
    const program = ts.createProgram([path], OPTIONS);
    const [checker, file] = [program.getTypeChecker(), program.getSourceFile(path)];
    const variables = new Map();
    const found = [];
    const variable = (node, name) => {
        const {parent} = node;
        const symbol = parent.name === node && !ts.isShorthandPropertyAssignment(parent) ? parent.symbol : checker.resolveName(name, node, ts.SymbolFlags.Value, false);
        if (!symbol?.declarations?.length) {
            found.push(name);
        } else {
            variables.set(symbol, variables.get(symbol) ?? variables.size);
            found.push(variables.get(symbol));
        }
    };
    const look = node => {
        if (!ts.isIdentifier(node)) {
            const isText = ts.isLiteralExpression(node) || ts.isPrivateIdentifier(node) || node.kind === ts.SyntaxKind.TemplateHead
                || node.kind === ts.SyntaxKind.TemplateMiddle || node.kind === ts.SyntaxKind.TemplateTail;
            const isAlone = ts.isShorthandPropertyAssignment(node);
            found.push(isText ? node.text : ts.SyntaxKind[isAlone ? ts.SyntaxKind.PropertyAssignment : node.kind]);
            ts.forEachChild(node, look);
        } else if (isKey(node, node)) {
            found.push(`.${node.text}`);
        } else {
            const {parent} = node;
            const isBoth = ts.isShorthandPropertyAssignment(parent) && parent.name === node
                || ts.isBindingElement(parent) && parent.name === node && !parent.propertyName && !parent.dotDotDotToken && ts.isObjectBindingPattern(parent.parent);
            if (isBoth) {
                found.push(`.${node.text}`);
            }
            variable(node, node.text);
        }
    };
    look(file);
    return {found, faults: file.parseDiagnostics.length};
}

/** The first difference of two scripts. */
function difference([one, other]) {
    const [before, after] = [meanings(one), meanings(other)];
    const at = before.found.findIndex((it, place) => it !== after.found[place]);
    if (before.faults || after.faults) {
        return `${one} can't be read`;
    }
    return at >= 0 || before.found.length !== after.found.length
        ? `${one}: ${before.found.slice(Math.max(0, at - 8), at + 2).join(" ")} is ${after.found.slice(Math.max(0, at - 8), at + 2).join(" ")}` : "";
}

for (const line of readFileSync(0, "utf8").trim().split("\n")) {
    console.log(difference(line.split("\t")));
}
