// Sources read by the acorn that Node brings, and what is counted in them, by the table of constructs alone.
"use strict";
const acorn = require("internal/deps/acorn/acorn/dist/acorn");
const { createHash } = require("crypto");

const STATEMENTS = new Set([
  "ExpressionStatement", "BreakStatement", "ContinueStatement", "DebuggerStatement", "ReturnStatement", "ThrowStatement",
  "TryStatement", "IfStatement", "ForStatement", "ForInStatement", "ForOfStatement", "WhileStatement", "DoWhileStatement",
  "SwitchStatement", "LabeledStatement",
]);
const FUNCTIONS = new Set(["FunctionDeclaration", "FunctionExpression", "ArrowFunctionExpression"]);

function read(text) {
  return acorn.parse(text, { ecmaVersion: 2022, sourceType: "script", allowReturnOutsideFunction: true, locations: true });
}

const placeOf = ({ line, column }) => ({ line, column });
const locationOf = node => ({ start: placeOf(node.loc.start), end: placeOf(node.loc.end) });
const nowhere = () => ({ start: {}, end: {} });

// The nodes right below one, from left to right. A shorthand property has its name twice.
function partsOf(node) {
  const parts = [];
  for (const key of Object.keys(node)) {
    if (node.shorthand && key === "key") continue;
    for (const part of Array.isArray(node[key]) ? node[key] : [node[key]]) {
      if (part && typeof part.type === "string") parts.push(part);
    }
  }
  return parts.sort((one, other) => one.start - other.start);
}

const isCounted = node => STATEMENTS.has(node.type) && node.directive === undefined;

// The operands of a chain of logical operators, whatever parentheses are in it.
function leavesOf(node) {
  return node.type === "LogicalExpression" ? [...leavesOf(node.left), ...leavesOf(node.right)] : [node];
}

// Numbers what is counted, and keeps the numbers at the nodes: `statement`, `body` (of an arrow's expression), `entry` of a
// function and `branch`.
function constructsOf(text, path) {
  const tree = read(text);
  const statementMap = {}, fnMap = {}, branchMap = {}, s = {}, f = {}, b = {};
  let statements = 0, functions = 0, branches = 0;
  const statement = node => {
    statementMap[statements] = locationOf(node);
    s[statements] = 0;
    return statements++;
  };
  const branch = (type, loc, locations) => {
    branchMap[branches] = { loc, type, locations };
    b[branches] = locations.map(() => 0);
    return branches++;
  };
  function enter(node, from) {
    const start = placeOf((from || node).loc.start);
    const decl = node.id ? locationOf(node.id) : { start, end: { line: start.line, column: start.column + 1 } };
    fnMap[functions] = { name: node.id ? node.id.name : `(anonymous_${functions})`, decl, loc: locationOf(node.body) };
    f[functions] = 0;
    node.entry = functions++;
    for (const parameter of node.params) visit(parameter);
    if (node.type === "ArrowFunctionExpression" && node.expression) node.body.asBody = statement(node.body);
    visit(node.body);
  }
  function visit(node, chained) {
    if (isCounted(node)) node.statement = statement(node);
    if (FUNCTIONS.has(node.type)) return enter(node);
    switch (node.type) {
      case "IfStatement":
        node.branch = branch("if", locationOf(node), [locationOf(node), node.alternate ? locationOf(node.alternate) : nowhere()]);
        break;
      case "ConditionalExpression":
        node.branch = branch("cond-expr", locationOf(node), [locationOf(node.consequent), locationOf(node.alternate)]);
        break;
      case "SwitchStatement":
        node.branch = branch("switch", locationOf(node), node.cases.map(locationOf));
        break;
      case "LogicalExpression":
        if (!chained) node.branch = branch("binary-expr", locationOf(node), leavesOf(node).map(locationOf));
        visit(node.left, node.left.type === "LogicalExpression");
        return visit(node.right, node.right.type === "LogicalExpression");
      case "AssignmentPattern":
        node.branch = branch("default-arg", locationOf(node), [locationOf(node.right)]);
        break;
      case "Property":
        if (node.method) {
          if (node.computed) visit(node.key);
          return enter(node.value, node);
        }
        break;
      case "VariableDeclarator":
        if (node.init) node.statement = statement(node.init);
        break;
    }
    partsOf(node).forEach(part => visit(part));
  }
  visit(tree);
  const hash = createHash("sha1").update(text).digest("hex");
  return { tree, coverage: { path, hash, statementMap, fnMap, branchMap, s, f, b } };
}

// The first arguments of calls of the name `require` that are texts, in the text's order.
function requestsOf(tree) {
  const found = [];
  (function visit(node) {
    if (node.type === "CallExpression" && node.callee.type === "Identifier" && node.callee.name === "require") {
      const [first] = node.arguments;
      if (first && first.type === "Literal" && typeof first.value === "string") found.push(first.value);
    }
    partsOf(node).forEach(visit);
  })(tree);
  return found;
}

module.exports = { constructsOf, leavesOf, read, requestsOf };
