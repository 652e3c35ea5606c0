// Runs a program of files for a number of steps, counts, and tells its end, its output and its coverage.
"use strict";
const vm = require("vm");
const { posix } = require("path");
const { isNativeError } = require("util").types;
const { constructsOf, read, requestsOf } = require("./tree.js");
const { textOf } = require("./text.js");

// The methods of arrays that are written in the language; their turns and calls take steps, and nothing in them is counted.
const CALLABLE = 'if(typeof f!=="function")throw new TypeError("not a function");const n=this.length;';
const FOR = "for(let i=0;i<n;i++)";
const PRELUDE = `({
forEach(f){${CALLABLE}${FOR} if(i in this)f(this[i],i,this);},
map(f){${CALLABLE}const r=[];${FOR} if(i in this)r[i]=f(this[i],i,this);if(r.length<n)r.length=n;return r;},
filter(f){${CALLABLE}const r=[];${FOR} if(i in this){const v=this[i];if(f(v,i,this))r[r.length]=v;}return r;},
some(f){${CALLABLE}${FOR} if(i in this&&f(this[i],i,this))return true;return false;},
every(f){${CALLABLE}${FOR} if(i in this&&!f(this[i],i,this))return false;return true;},
find(f){${CALLABLE}${FOR}{const v=this[i];if(f(v,i,this))return v;}},
findIndex(f){${CALLABLE}${FOR} if(f(this[i],i,this))return i;return -1;}
});`;

const MESSAGES = [
  [/ is not defined$/, "not defined"],
  [/^Cannot access .* before initialization$/, "not initialised"],
  [/^Cannot (read|set) properties of /, "no properties"],
  [/^Assignment to constant variable/, "constant"],
  [/^(Cannot (assign to read only|add|delete|define|create) prop|Cannot assign to read only)/, "read only"],
  [/ is not iterable/, "not iterable"],
];

// The path that a specifier names from a file, or null.
function resolved(from, specifier) {
  if (!/^\.\.?\//.test(specifier)) return null;
  const path = posix.normalize(posix.join(posix.dirname(from), specifier));
  return path.startsWith("../") ? null : path.endsWith(".js") ? path : `${path}.js`;
}

// The files that a program has, by their paths: the entry and all that is asked for by a text.
function loaded(sources, entry) {
  const paths = [entry];
  for (const path of paths) {
    for (const specifier of requestsOf(read(sources[path]))) {
      const next = resolved(path, specifier);
      if (next !== null && next in sources && !paths.includes(next)) paths.push(next);
    }
  }
  return paths;
}

const isPrimitive = value => value === null || (typeof value !== "object" && typeof value !== "function");
const told = value => (isPrimitive(value) ? String(value) : typeof value === "function" ? "function" : "object");

function shown(value) {
  if (!isNativeError(value)) return told(value);
  const [name, message] = [value.name, value.message].map(one => (isPrimitive(one) ? String(one) : "object"));
  return message === "" ? name : `${name}: ${message}`;
}

// What a run of the files comes to. `counted` says of a path whether its file is; `steps` are the steps that it has.
function run(sources, entry, steps = 1_000_000, counted = () => true) {
  const context = vm.createContext({});
  const inside = text => vm.runInContext(text, context);
  const { TypeError, Error } = inside("({ TypeError, Error })");
  const coverage = {};
  const stop = {};
  let output = "", used = 0, kind = null;

  // Nothing that can be seen happens without a step, and none is given after the run has stopped.
  function end(why) {
    kind = kind || why;
    throw stop;
  }
  function step() {
    if (kind !== null || used === steps) end("Going");
    used += 1;
  }
  function number(value) {
    if (typeof value === "number" && !Number.isSafeInteger(value)) end("Number");
    return value;
  }
  function caught(error) {
    if (kind !== null) throw stop;
    if (!isNativeError(error)) return;
    for (const [pattern, message] of MESSAGES) {
      if (pattern.test(error.message)) Object.defineProperty(error, "message", { value: message });
    }
  }
  const bound = (callee, self) => ({
    call(list) {
      if (typeof callee !== "function") throw new TypeError("not a function");
      step();
      return Reflect.apply(callee, self, list);
    },
    make(list) {
      if (typeof callee !== "function" || !("prototype" in callee)) throw new TypeError("not a constructor");
      step();
      return Reflect.construct(callee, list);
    },
  });
  const plain = {
    turn: step,
    number,
    caught,
    callee: value => bound(value, undefined),
    method: (self, key) => bound(self[key], self),
    named: (name, value) => Object.defineProperty(value, "name", { value: name }),
  };
  const counting = data => ({
    ...plain,
    s(i) { step(); data.s[i] += 1; },
    f(i) { step(); data.f[i] += 1; },
    b(i, j) { step(); data.b[i][j] += 1; },
  });

  inside("(function (print) { globalThis.print = print; })")((...values) => {
    if (!values.every(isPrimitive)) end("Convert");
    output += `${values.map(String).join(" ")}\n`;
  });
  const methods = inside(`(function ($$) { "use strict"; return ${textOf(read(PRELUDE), false)} })`)(plain);
  inside(`(function (methods) {
    for (const name of Object.keys(methods)) Object.defineProperty(Array.prototype, name, { value: methods[name], enumerable: false });
    for (const one of [Object, Array, Function, String, Number, Boolean, Error, TypeError, RangeError, ReferenceError, SyntaxError]) Object.freeze(one.prototype);
  })`)(methods);

  const program = new Map();
  for (const path of loaded(sources, entry)) {
    const { tree, coverage: data } = constructsOf(sources[path], path);
    const counts = counted(path) && !/istanbul\s+ignore\s+file/.test(sources[path]);
    const text = `(function ($$) { return function (exports, require, module) { "use strict";\n${textOf(tree, counts)}}; })`;
    program.set(path, { data, counts, start: inside(text)(counts ? counting(data) : plain) });
  }

  const cache = new Map();
  function start(path) {
    const { data, counts, start: body } = program.get(path);
    const module = inside("({ exports: {} })");
    cache.set(path, module);
    try {
      if (counts) {
        step();
        coverage[path] = data;
      }
      Reflect.apply(body, undefined, [module.exports, requireFrom(path), module]);
    } catch (error) {
      cache.delete(path);
      throw error;
    }
    return module.exports;
  }
  function requireFrom(from) {
    return Object.freeze(inside("(function (ask) { return function require(path) { return ask(path); }; })")(specifier => {
      if (typeof specifier !== "string") throw new TypeError("not a text");
      const path = resolved(from, specifier);
      if (path === null || !program.has(path)) throw new Error("no such file");
      return cache.has(path) ? cache.get(path).exports : start(path);
    }));
  }

  let thrown = null;
  try {
    start(entry);
  } catch (error) {
    if (error !== stop && kind === null) {
      caught(error);
      thrown = { text: shown(error) };
    }
  }
  const [status, said] = kind === "Going" ? [8, `Still going after ${steps} steps`]
    : kind !== null ? [7, `Range refusal: ${kind}`]
      : thrown ? [1, `Uncaught ${thrown.text}`] : [0, ""];
  return { status, said, output, used, coverage };
}

module.exports = { run };
