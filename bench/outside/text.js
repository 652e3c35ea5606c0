// The text of a tree in which everything that takes a step says so to `$$` first: an entry of a construct, a turn of a loop, a
// call. Where the file isn't counted (`counted` false), no construct does.
"use strict";
const { leavesOf } = require("./tree.js");

const RANGED = new Set(["+", "-", "*", "/", "%", "**"]);

function textOf(tree, counted) {
  const count = (kind, ...numbers) => (counted ? `$$.${kind}(${numbers.join()})` : "");
  const before = (counter, text) => (counter ? `(${counter}, ${text})` : text);
  const first = counter => (counter ? `${counter}; ` : "");

  const isAnonymous = node => node.type === "ArrowFunctionExpression" || (node.type === "FunctionExpression" && !node.id);
  // A function that gets its name from its place keeps it behind a counter.
  const named = (name, node) => (counted && isAnonymous(node) ? `$$.named(${JSON.stringify(name)}, ${expression(node)})` : expression(node));

  const list = nodes => nodes.map(node => expression(node)).join(", ");
  const parameters = node => node.params.map(one => (one.type === "AssignmentPattern"
    ? `${one.left.name} = ${before(count("b", one.branch, 0), named(one.left.name, one.right))}` : one.name)).join(", ");
  const body = node => `{ ${first(count("f", node.entry))}${statements(node.body.body)}}`;

  function arrow(node) {
    if (!node.expression) return body(node);
    return `{ ${first(count("f", node.entry))}${first(count("s", node.body.asBody))}return ${expression(node.body)}; }`;
  }

  function member(node) {
    return node.computed ? `(${expression(node.object)})[${expression(node.property)}]` : `(${expression(node.object)}).${node.property.name}`;
  }

  const target = node => (node.type === "Identifier" ? node.name : member(node));

  function call(node) {
    const { callee } = node;
    if (callee.type !== "MemberExpression") return `$$.callee(${expression(callee)}).call([${list(node.arguments)}])`;
    const key = callee.computed ? expression(callee.property) : JSON.stringify(callee.property.name);
    return `$$.method(${expression(callee.object)}, ${key}).call([${list(node.arguments)}])`;
  }

  function chain(node, leaves, number) {
    if (node.type !== "LogicalExpression") return before(count("b", number, leaves.indexOf(node)), expression(node));
    return `(${chain(node.left, leaves, number)} ${node.operator} ${chain(node.right, leaves, number)})`;
  }

  function property(node) {
    if (node.shorthand) return node.key.name;
    const raw = node.key.type === "Literal" ? node.key.raw : node.key.name;
    const key = node.computed ? `[${expression(node.key)}]` : raw;
    return node.method ? `${key}(${parameters(node.value)}) ${body(node.value)}` : `${key}: ${expression(node.value)}`;
  }

  function template(node) {
    return `\`${node.quasis.map(({ value }, i) => value.raw + (i < node.expressions.length ? `\${${expression(node.expressions[i])}}` : "")).join("")}\``;
  }

  function expression(node) {
    switch (node.type) {
      case "Identifier": return node.name;
      case "Literal": return typeof node.value === "number" ? `$$.number(${node.raw})` : node.raw;
      case "ThisExpression": return "this";
      case "TemplateLiteral": return template(node);
      case "ArrayExpression": return `[${list(node.elements)}]`;
      case "ObjectExpression": return `({${node.properties.map(property).join(", ")}})`;
      case "FunctionExpression": return `(function ${node.id ? node.id.name : ""}(${parameters(node)}) ${body(node)})`;
      case "ArrowFunctionExpression": return `((${parameters(node)}) => ${arrow(node)})`;
      case "UnaryExpression":
        if (node.operator === "delete" && node.argument.type === "MemberExpression") return `(delete ${member(node.argument)})`;
        return "+-".includes(node.operator) ? `$$.number(${node.operator} ${expression(node.argument)})` : `(${node.operator} ${expression(node.argument)})`;
      case "UpdateExpression":
        return `$$.number(${node.prefix ? `${node.operator}${target(node.argument)}` : `${target(node.argument)}${node.operator}`})`;
      case "BinaryExpression": {
        const text = `(${expression(node.left)} ${node.operator} ${expression(node.right)})`;
        return RANGED.has(node.operator) ? `$$.number${text}` : text;
      }
      case "AssignmentExpression": {
        const text = `(${target(node.left)} ${node.operator} ${expression(node.right)})`;
        return node.operator === "=" ? text : `$$.number${text}`;
      }
      case "LogicalExpression": return chain(node, leavesOf(node), node.branch);
      case "ConditionalExpression":
        return `(${expression(node.test)} ? ${before(count("b", node.branch, 0), expression(node.consequent))} : ${before(count("b", node.branch, 1), expression(node.alternate))})`;
      case "CallExpression": return call(node);
      case "NewExpression": return `$$.callee(${expression(node.callee)}).make([${list(node.arguments)}])`;
      case "MemberExpression": return member(node);
      case "SequenceExpression": return `(${list(node.expressions)})`;
    }
    throw Error(`no expression of the profile: ${node.type}`);
  }

  const declarator = node => (node.init ? `${node.id.name} = ${before(count("s", node.statement), named(node.id.name, node.init))}` : node.id.name);
  const declaration = node => `${node.kind} ${node.declarations.map(declarator).join(", ")}`;
  const turn = node => `{ $$.turn(); ${statement(node)}}`;
  const arm = (node, counter) => `{ ${first(counter)}${node ? statement(node) : ""}}`;
  const header = node => (node === null ? "" : node.type === "VariableDeclaration" ? declaration(node) : expression(node));
  const goal = node => (node.type === "VariableDeclaration" ? `${node.kind} ${node.declarations[0].id.name}` : target(node));
  const statements = nodes => nodes.map(statement).join("");

  function statement(node) {
    const { counters, text } = parts(node);
    if (node.type === "VariableDeclaration" || node.type === "FunctionDeclaration") return `${text}\n`;
    return counters ? `{ ${counters}${text} }\n` : `${text}\n`;
  }

  // The counters of a statement and of those that it labels, which are entered with it, and its text behind them.
  function parts(node) {
    if (node.type === "LabeledStatement") {
      const { counters, text } = parts(node.body);
      return { counters: first(count("s", node.statement)) + counters, text: `${node.label.name}: ${text}` };
    }
    return { counters: node.statement === undefined ? "" : first(count("s", node.statement)), text: plain(node) };
  }

  function plain(node) {
    switch (node.type) {
      case "BlockStatement": return `{ ${statements(node.body)}}`;
      case "EmptyStatement": return ";";
      case "DebuggerStatement": return ";";
      case "ExpressionStatement": return node.directive === undefined ? `${expression(node.expression)};` : ";";
      case "VariableDeclaration": return `${declaration(node)};`;
      case "FunctionDeclaration": return `function ${node.id.name}(${parameters(node)}) ${body(node)}`;
      case "ReturnStatement": return node.argument ? `return ${expression(node.argument)};` : "return;";
      case "ThrowStatement": return `throw ${expression(node.argument)};`;
      case "BreakStatement": return `break ${node.label ? node.label.name : ""};`;
      case "ContinueStatement": return `continue ${node.label ? node.label.name : ""};`;
      case "IfStatement":
        return `if (${expression(node.test)}) ${arm(node.consequent, count("b", node.branch, 0))} else ${arm(node.alternate, count("b", node.branch, 1))}`;
      case "ForStatement":
        return `for (${header(node.init)}; ${header(node.test)}; ${header(node.update)}) ${turn(node.body)}`;
      case "ForInStatement": return `for (${goal(node.left)} in ${expression(node.right)}) ${turn(node.body)}`;
      case "ForOfStatement": return `for (${goal(node.left)} of ${expression(node.right)}) ${turn(node.body)}`;
      case "WhileStatement": return `while (${expression(node.test)}) ${turn(node.body)}`;
      case "DoWhileStatement": return `do ${turn(node.body)} while (${expression(node.test)});`;
      case "SwitchStatement":
        return `switch (${expression(node.discriminant)}) { ${node.cases.map((one, i) =>
          `${one.test ? `case ${expression(one.test)}` : "default"}: ${first(count("b", node.branch, i))}${statements(one.consequent)}`).join("")}}`;
      case "TryStatement": {
        const { handler, finalizer } = node;
        const caught = !handler ? "" : handler.param
          ? ` catch (${handler.param.name}) { $$.caught(${handler.param.name}); ${statements(handler.body.body)}}` : ` catch { ${statements(handler.body.body)}}`;
        return `try { ${statements(node.block.body)}}${caught}${finalizer ? ` finally { ${statements(finalizer.body)}}` : ""}`;
      }
    }
    throw Error(`no statement of the profile: ${node.type}`);
  }

  return statements(tree.body);
}

module.exports = { textOf };
