// Programs of one to five files, made of a number: every form that is counted, whole numbers, and loops that end.
"use strict";

const NAMES = ["total", "rest", "count", "limit", "level", "width", "rank", "size", "bound", "weight", "gain", "depth"];
const CALLS = ["add", "scale", "choose", "clamp", "walk", "fold", "mix", "wrap", "next", "part"];
const FILES = ["util.js", "lib/list.js", "lib/part.js", "lib/deep/end.js"];

// Draws from a number (mulberry32).
function drawing(seed) {
  let state = seed >>> 0;
  return below => {
    state = (state + 0x6d2b79f5) >>> 0;
    let t = Math.imul(state ^ (state >>> 15), state | 1);
    t ^= t + Math.imul(t ^ (t >>> 7), t | 61);
    return ((t ^ (t >>> 14)) >>> 0) % below;
  };
}

function maker(draw) {
  const pick = list => list[draw(list.length)];
  const chance = percent => draw(100) < percent;
  const taken = new Map();

  // A name that no other thing of the program has.
  function fresh(list) {
    const name = pick(list);
    taken.set(name, (taken.get(name) || 0) + 1);
    return taken.get(name) === 1 ? name : `${name}${taken.get(name)}`;
  }

  // What stands round a place: names that can be read, those that can be written, functions with how many arguments they ask for,
  // whether it is in a loop or a function, and the labels of the loops round it.
  const opened = scope => ({ ...scope, read: [...scope.read], write: [...scope.write], calls: [...scope.calls] });

  const literal = () => String(draw(10));
  const value = scope => (scope.read.length > 0 && chance(65) ? pick(scope.read) : literal());

  function called(scope, deep) {
    const { text, least, most } = pick(scope.calls);
    return `${text}(${Array.from({ length: least + draw(most - least + 1) }, () => number(scope, deep + 1)).join(", ")})`;
  }

  function number(scope, deep = 0) {
    if (deep > 1) return value(scope);
    const [a, b] = [0, 1].map(() => () => number(scope, deep + 1));
    switch (draw(scope.calls.length > 0 ? 14 : 11)) {
      case 0: return literal();
      case 1: return `${a()} + ${value(scope)}`;
      case 2: return `(${a()}) - ${value(scope)}`;
      case 3: return `(${a()}) * ${1 + draw(3)}`;
      case 4: return `(${a()}) % ${2 + draw(5)}`;
      case 5: return `(${condition(scope, deep + 1)} ? ${a()} : ${b()})`;
      case 6: return `(${value(scope)} || ${b()})`;
      case 7: return `(${a()} && ${b()})`;
      case 8: return `(${value(scope)} ?? ${value(scope)})`;
      case 9: return `[${a()}, ${value(scope)}].${pick(["length", "indexOf(1)", `filter(x => x > ${literal()}).length`, `some(x => x === ${literal()}) ? 1 : 2`])}`.replace(/^(.*\?.*)$/, "($1)");
      case 10: return value(scope);
      default: return called(scope, deep);
    }
  }

  function condition(scope, deep = 0) {
    if (deep > 1) return `${value(scope)} > ${literal()}`;
    switch (draw(7)) {
      case 0: return `${value(scope)} ${pick(["<", ">", "<=", ">="])} ${value(scope)}`;
      case 1: return `${value(scope)} % 2`;
      case 2: return `!${value(scope)}`;
      case 3: return `${condition(scope, deep + 1)} && ${condition(scope, deep + 1)}`;
      case 4: return `(${condition(scope, deep + 1)} || ${condition(scope, deep + 1)}) && ${value(scope)}`;
      case 5: return `${value(scope)} ${pick(["===", "!==", "=="])} ${literal()}`;
      default: return `${condition(scope, deep + 1)} || ${value(scope)} > 2`;
    }
  }

  const inner = lines => lines.map(line => `  ${line}`);
  const braced = (head, lines) => [`${head} {`, ...inner(lines), "}"];

  // Some statements, the first ones of which later ones may need.
  function list(scope, room) {
    const lines = [];
    for (let left = room; left > 0;) {
      const more = statement(scope, left);
      lines.push(...more);
      left -= Math.max(1, more.length);
    }
    return lines;
  }

  const block = (scope, room, more = {}) => list({ ...opened(scope), ...more }, Math.max(1, room));

  function simple(scope) {
    switch (draw(scope.write.length > 0 ? 9 : 4)) {
      case 0: return `print(${number(scope)});`;
      case 1: return `print("${pick(NAMES)}", ${number(scope)});`;
      case 2: return `${condition(scope, 1)} && print(${value(scope)});`;
      case 3: return `print(\`\${${number(scope, 1)}} of \${${value(scope)}}\`);`;
      case 4: return `${pick(scope.write)}${pick(["++", "--"])};`;
      case 5: return `${pick(scope.write)} ${pick(["+=", "-="])} ${number(scope, 1)};`;
      case 6: return `${pick(scope.write)} = ${number(scope)};`;
      case 7: return `${condition(scope, 1)} ? ${pick(scope.write)}++ : ${pick(scope.write)}--;`;
      default: return `${pick(scope.write)} = ${number(scope)}, print(${value(scope)});`;
    }
  }

  function declaration(scope) {
    const kind = pick(["let", "let", "const", "var"]);
    const name = fresh(NAMES);
    const lines = [];
    if (chance(20)) {
      const other = fresh(NAMES);
      lines.push(`${kind} ${name} = ${number(scope)}, ${other} = ${literal()};`);
      scope.read.push(other);
    } else {
      lines.push(`${kind} ${name} = ${number(scope)};`);
    }
    scope.read.push(name);
    if (kind !== "const") scope.write.push(name);
    return lines;
  }

  function parametersOf(scope) {
    const names = ["a", "b", "c"].slice(0, 1 + draw(3));
    const least = draw(names.length + 1);
    const texts = names.map((name, i) => {
      if (i < least) return name;
      const before = { ...scope, read: [...scope.read, ...names.slice(0, i)] };
      return `${name} = ${number(before, 1)}`;
    });
    return { names, least, text: texts.join(", ") };
  }

  // A function of numbers that answers one, in one of the forms that a function has.
  function callable(scope, room) {
    const name = fresh(CALLS);
    const { names, least, text } = parametersOf(scope);
    const inside = { ...opened(scope), write: [...names], inFunction: true, inLoop: false, loops: [] };
    inside.read.push(...names);
    const lines = () => [...block(inside, Math.min(room, 3) - 1), `return ${number(inside)};`];
    const form = draw(5);
    const made = form === 0 ? [`const ${name} = (${text}) => ${number(inside)};`]
      : form === 1 ? braced(`const ${name} = function (${text})`, lines())
        : form === 2 ? [`const ${name} = { of(${text}) { return ${number(inside)}; } };`]
          : braced(`function ${name}(${text})`, lines());
    if (made[made.length - 1] === "}" && form === 1) made[made.length - 1] = "};";
    scope.calls.push({ text: form === 2 ? `${name}.of` : name, least, most: names.length });
    return made;
  }

  function closure(scope) {
    const name = fresh(CALLS);
    const held = fresh(NAMES);
    scope.calls.push({ text: name, least: 0, most: 1 });
    return [`const ${name} = (start => { let ${held} = start; return (by = 1) => { ${held} += by; return ${held}; }; })(${number(scope, 1)});`];
  }

  function conditional(scope, room) {
    const short = chance(25);
    if (short) return [`if (${condition(scope)}) ${simple(scope)}${chance(30) ? ` else ${simple(scope)}` : ""}`];
    const lines = braced(`if (${condition(scope)})`, block(scope, room - 3));
    if (chance(30) && room > 5) {
      lines[lines.length - 1] = `} else if (${condition(scope)}) {`;
      lines.push(...inner(block(scope, 1)), "}");
    }
    if (chance(40) && room > 4) {
      lines[lines.length - 1] = "} else {";
      lines.push(...inner(block(scope, 1)), "}");
    }
    return lines;
  }

  function loop(scope, room) {
    const name = fresh(["i", "j", "k"]);
    const label = chance(25) ? fresh(["outer", "scan", "rows"]) : null;
    const inside = { ...opened(scope), inLoop: true, loops: label ? [...scope.loops, label] : scope.loops };
    const form = draw(6);
    if (form !== 4) inside.read.push(name);
    const leave = () => (chance(22) ? [`if (${condition(inside)}) ${pick(["continue", "break"])}${label && chance(70) ? ` ${label}` : ""};`] : []);
    const body = () => [...leave(), ...list(inside, Math.max(1, room - 3)), ...leave()];
    const head = label ? `${label}: ` : "";
    switch (form) {
      case 0: return braced(`${head}for (let ${name} = 0; ${name} < ${1 + draw(4)}; ${name}++)`, body());
      case 1: return [`${pick(["let", "var"])} ${name} = ${1 + draw(4)};`, ...braced(`${head}while (${name}-- > 0)`, body())];
      case 2: {
        const lines = [`let ${name} = 0;`, ...braced(`${head}do`, body())];
        lines[lines.length - 1] = `} while (++${name} < ${1 + draw(3)});`;
        return lines;
      }
      case 3: return braced(`${head}for (const ${name} of [${value(scope)}, ${number(scope, 1)}, ${literal()}])`, body());
      case 4: return braced(`${head}for (const ${name} in { x: ${number(scope, 1)}, y: 2 })`, [`print(${name});`, ...body()]);
      default: return [`for (let ${name} = ${draw(4)}; ${name} > 0; ${name} -= 1) print(${name} % 2 ? ${name} : ${number(scope, 1)});`];
    }
  }

  function switching(scope) {
    const lines = [];
    const numbers = [0, 1, 2].slice(0, 1 + draw(3));
    const where = draw(numbers.length + 2);
    [...numbers.slice(0, where), ...(where <= numbers.length ? [null] : []), ...numbers.slice(where)].forEach(one => {
      const end = chance(55) ? " break;" : "";
      const does = chance(85) ? ` ${simple(scope)}` : "";
      lines.push(`${one === null ? "default" : `case ${one}`}:${does}${end}`);
    });
    return braced(`switch (${chance(50) ? `${value(scope)} % 3` : number(scope, 1)})`, lines);
  }

  function trying(scope) {
    const form = draw(3);
    const thrown = pick([literal(), `new Error("${pick(NAMES)}")`, `new RangeError(\`\${${value(scope)}}\`)`, `"${pick(NAMES)}"`]);
    const lines = braced("try", [...(chance(50) ? [simple(scope)] : []), chance(60) ? `if (${condition(scope)}) throw ${thrown};` : scope.inFunction && chance(40) ? `return ${number(scope)};` : `throw ${thrown};`,
      ...(chance(40) ? [simple(scope)] : [])]);
    if (form !== 0) {
      lines[lines.length - 1] = chance(20) ? "} catch {" : "} catch (error) {";
      lines.push(lines[lines.length - 1] === "} catch {" ? `  ${simple(scope)}` : `  print(${pick(["error instanceof Error ? error.message : error", "`caught ${error && error.message || error}`", "typeof error"])});`, "}");
    }
    if (form !== 1) {
      if (form === 0) {
        lines[lines.length - 1] = "} catch (error) {";
        lines.push("}");
      }
      lines[lines.length - 1] = "} finally {";
      lines.push(`  ${simple(scope)}`, "}");
    }
    return lines;
  }

  function labelled(scope) {
    const label = fresh(["done", "found", "once"]);
    return braced(`${label}:`, [...block(scope, 1), `if (${condition(scope)}) break ${label};`, simple(scope)]);
  }

  function constructed(scope) {
    const name = fresh(["Point", "Cell", "Box"]);
    const call = fresh(CALLS);
    scope.calls.push({ text: `${call}.at`, least: 0, most: 1 });
    return [`function ${name}(x) { this.x = x || ${1 + draw(5)}; }`, `${name}.prototype.at = function (by = this.x) { return this.x > 2 ? by : this.x; };`, `const ${call} = new ${name}(${number(scope, 1)});`];
  }

  function statement(scope, room) {
    const kind = draw(100);
    if (kind < 14 || room < 2) return [simple(scope)];
    if (kind < 24) return declaration(scope);
    if (kind < 34) return callable(scope, room);
    if (kind < 37) return closure(scope);
    if (kind < 48) return conditional(scope, room);
    if (kind < 58) return loop(scope, room);
    if (kind < 70) return switching(scope);
    if (kind < 82) return trying(scope);
    if (kind < 87) return labelled(scope);
    if (kind < 91) return constructed(scope);
    if (kind < 93) return [pick([";", "debugger;", "{}", "{ ; }"])];
    if (kind < 98 && scope.inLoop && scope.loops.length > 0) return [`if (${condition(scope)}) ${pick(["continue", "break"])} ${pick(scope.loops)};`];
    if (scope.inFunction) return [`if (${condition(scope)}) return ${number(scope)};`];
    return [simple(scope)];
  }

  // Without the `;` that the next line lets be missing.
  function bare(lines) {
    return lines.map((line, i) => (/[\w)\]`"]\s*;$/.test(line) && (i + 1 === lines.length || /^\s*[a-z}]/.test(lines[i + 1])) ? line.slice(0, -1) : line));
  }

  const fileOf = lines => `${(chance(20) ? bare(lines) : lines).join("\n")}\n`;
  const empty = () => ({ read: [], write: [], calls: [], inLoop: false, inFunction: false, loops: [] });
  const specifier = (from, to) => {
    const up = from.split("/").length - 1;
    const text = `${up > 0 ? "../".repeat(up) : "./"}${to}`;
    return chance(50) ? text.replace(/\.js$/, "") : text;
  };

  // A file that others ask for, and what it gives them: an expression after `require(..)`, with how many arguments it asks for.
  function moduleOf(path, room, others) {
    const scope = empty();
    const lines = chance(30) ? ['"use strict";'] : [];
    for (const other of others) lines.push(...asking(path, other, scope));
    lines.push(...list(scope, room));
    const { names, least, text } = parametersOf(scope);
    const inside = { ...opened(scope), inFunction: true };
    inside.read.push(...names);
    const given = { path, least, most: names.length, after: "", throws: false };
    switch (draw(4)) {
      case 0: lines.push(`module.exports = (${text}) => ${number(inside)};`); break;
      case 1: lines.push(`exports.run = function (${text}) { return ${number(inside)}; };`); given.after = ".run"; break;
      case 2: lines.push(`module.exports = { run(${text}) { ${simple(inside)} return ${number(inside)}; } };`); given.after = ".run"; break;
      default:
        lines.push(`module.exports = function of(${text}) { if (${condition(inside)}) { return ${value(inside)}; } return ${number(inside)}; };`);
    }
    if (chance(12)) {
      lines.push(`throw new Error("${pick(NAMES)}");`);
      given.throws = true;
    }
    return { text: fileOf(lines), given };
  }

  function asking(from, { path, least, most, after, throws }, scope) {
    const ask = `require("${specifier(from, path)}")`;
    if (throws) return [`try { ${ask}; } catch (error) { print(error.message); }`, ...(chance(60) ? [`try { ${ask}; } catch { print("again"); }`] : [])];
    const name = fresh(CALLS);
    scope.calls.push({ text: after === "" || chance(50) ? name : `${name}${after}`, least, most });
    if (scope.calls[scope.calls.length - 1].text === name) return [`const ${name} = ${ask}${after};`];
    return [`const ${name} = ${ask};`];
  }

  function program(count) {
    const sources = {};
    const given = [];
    const paths = FILES.slice(0, count - 1);
    for (const path of [...paths].reverse()) {
      const made = moduleOf(path, draw(count > 3 ? 2 : 3), given.filter(() => chance(40)));
      sources[path] = made.text;
      given.push(made.given);
    }
    const scope = empty();
    const lines = [];
    for (const one of given.reverse()) lines.push(...asking("main.js", one, scope));
    lines.push(...declaration(scope), ...(count > 3 ? [] : chance(70) ? callable(scope, 3) : closure(scope)), ...loop(scope, [6, 4, 4, 3, 3][count - 1]));
    lines.push(...list(scope, [8, 6, 3, 3, 2][count - 1]));
    if (chance(15)) lines.push(`throw ${pick([number(scope), 'new TypeError("stop")', '"over"', "{}"])};`);
    sources["main.js"] = fileOf(lines);
    return Object.fromEntries(["main.js", ...paths].map(path => [path, sources[path]]));
  }
  return program;
}

// The program of a seed, with so many files.
const make = (seed, count) => maker(drawing(seed))(count);

module.exports = { make };
