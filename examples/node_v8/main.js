'use strict';

const { Ledger, inEuros, parse } = require('./ledger.js');

const lines = [
  '2026-11-02 -1250 tea and paper',
  '2026-11-05 250000 wages',
  '2026-11-30 -80000 rent',
];

const ledger = new Ledger();
for (const line of lines) {
  const { day, cents, note } = parse(line);
  ledger.add(day, cents, note);
}

async function main(words) {
  const [first = '2026-11-01', last = '2026-11-30'] = words;
  for await (const { day, cents, note } of ledger.between(first, last)) {
    console.log(`${day} ${inEuros(cents).padStart(10)} ${note}`);
  }
  console.log(`total      ${inEuros(ledger.total(first, last)).padStart(10)}`);
  if (ledger.total(first, last) < 0) {
    console.log('in the red');
  }
}

main(process.argv.slice(2)).catch(error => {
  console.error(error.message);
  process.exitCode = 1;
});
