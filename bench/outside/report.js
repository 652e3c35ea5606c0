// What `cov` makes of coverage: its JSON, with the members in the order of their bytes, and the reports `text` and `lcov`.
"use strict";

const byBytes = (one, other) => Buffer.compare(Buffer.from(one), Buffer.from(other));

function json(value) {
  if (Array.isArray(value)) return `[${value.map(json).join()}]`;
  if (typeof value !== "object") return JSON.stringify(value);
  return `{${Object.keys(value).sort(byBytes).map(key => `${JSON.stringify(key)}:${json(value[key])}`).join()}}`;
}

// Each line on which a statement starts, with the greatest of their counts.
function linesOf(file) {
  const lines = new Map();
  for (const [id, { start }] of Object.entries(file.statementMap)) {
    lines.set(start.line, Math.max(file.s[id], lines.get(start.line) || 0));
  }
  return [...lines].sort((one, other) => one[0] - other[0]);
}

const covered = counts => [counts.filter(count => count > 0).length, counts.length];
const sum = pairs => pairs.reduce((one, other) => [one[0] + other[0], one[1] + other[1]], [0, 0]);

function percentage([some, all]) {
  const hundredths = all === 0 ? 10000 : Math.floor(10000 * some / all);
  return String(hundredths / 100);
}

// Statements, branches, functions and lines of a file.
function countsOf(file) {
  return [Object.values(file.s), Object.values(file.b).flat(), Object.values(file.f), linesOf(file).map(([, count]) => count)].map(covered);
}

function missed(file) {
  const runs = [];
  for (const [line, count] of linesOf(file)) {
    if (count > 0) continue;
    const last = runs[runs.length - 1];
    if (last && last[1] === line - 1) last[1] = line; else runs.push([line, line]);
  }
  return runs.map(([first, last]) => (first === last ? String(first) : `${first}-${last}`)).join();
}

function text(map) {
  const paths = Object.keys(map).sort(byBytes);
  const width = Math.max(9, ...paths.map(path => [...path].length));
  const rule = `${"-".repeat(width + 1)}|---------|----------|---------|---------|-------------------`;
  const row = (name, counts, lines) => `${name.padEnd(width)} | ${counts.map((pair, i) =>
    percentage(pair).padStart([7, 8, 7, 7][i])).join(" | ")} |${lines === "" ? "" : ` ${lines}`}`;
  const counts = paths.map(path => countsOf(map[path]));
  const total = [0, 1, 2, 3].map(i => sum(counts.map(one => one[i])));
  return [rule, `${"File".padEnd(width)} | % Stmts | % Branch | % Funcs | % Lines | Uncovered Line #s`, rule, row("All files", total, ""),
    ...paths.map((path, i) => row(path, counts[i], missed(map[path]))), rule].map(line => `${line}\n`).join("");
}

function lcov(map) {
  const lines = [];
  for (const path of Object.keys(map).sort(byBytes)) {
    const file = map[path];
    lines.push("TN:", `SF:${path}`);
    const functions = Object.entries(file.fnMap);
    for (const [, { name, decl }] of functions) lines.push(`FN:${decl.start.line},${name}`);
    lines.push(`FNF:${functions.length}`, `FNH:${functions.filter(([id]) => file.f[id] > 0).length}`);
    for (const [id, { name }] of functions) lines.push(`FNDA:${file.f[id]},${name}`);
    const counts = linesOf(file);
    for (const [line, count] of counts) lines.push(`DA:${line},${count}`);
    lines.push(`LF:${counts.length}`, `LH:${counts.filter(([, count]) => count > 0).length}`);
    const paths = Object.entries(file.branchMap).flatMap(([id, { loc }]) => file.b[id].map((count, path) => ({ line: loc.start.line, id, path, count })));
    for (const { line, id, path, count } of paths) lines.push(`BRDA:${line},${id},${path},${count}`);
    lines.push(`BRF:${paths.length}`, `BRH:${paths.filter(({ count }) => count > 0).length}`, "end_of_record");
  }
  return lines.map(line => `${line}\n`).join("");
}

module.exports = { json, lcov, text };
