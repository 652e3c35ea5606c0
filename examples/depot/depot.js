'use strict';

// A depot's day: reads the commands, lets them happen in the order of their times, and reports.

const commandOf = require('./commands').commandOf;
const events = require('./events').events;
const orders = require('./orders').orders;
const report = require('./report').report;
const stock = require('./stock').stock;
const right = require('./text').right;

const out = typeof print === 'function' ? print : text => console.log(text);

const tell = (time, what) => out(`${right(String(time), 2)}h  ${what}`);

// Does what may be refused, and tells why it was.
function trying(where, what) {
  try {
    what();
  } catch (error) {
    if (!(error instanceof SyntaxError) && !(error instanceof RangeError)) throw error;
    out(`${where}: ${error.message}`);
  }
}

function day(script) {
  const queue = events();
  const store = stock();
  const book = orders(store, tell);

  const happens = {
    deliver: event => {
      store.comeIn(event.name, event.count);
      tell(event.time, `${event.count} ${event.name} come in`);
      book.shipAll(event.time);
    },
    order: event => book.put(event, event.time),
    cancel: event => book.cancel(event.who, event.time),
  };

  script.split('\n').forEach((line, number) => trying(`line ${number + 1}`, () => {
    const command = commandOf(line);
    if (command === null) return;
    if (command.what === 'item') store.add(command);
    else queue.put(command.time, command);
  }));
  while (!queue.isEmpty()) {
    const event = queue.take();
    trying(`${right(String(event.time), 2)}h`, () => happens[event.what](event));
  }
  return report(store, book);
}

for (const line of day(require('./script'))) out(line);
