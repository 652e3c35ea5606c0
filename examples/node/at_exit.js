'use strict';

// Writes what the process's instrumented files counted when it ends, into a file of its own.
const fs = require('node:fs');

process.on('exit', () => {
  fs.mkdirSync('coverage', { recursive: true });
  const counted = JSON.stringify(globalThis.__coverage__ || {});
  fs.writeFileSync(`coverage/${process.pid}.json`, counted);
});
