'use strict';

// What is told at the end of a day.

const money = require('./money');
const table = require('./table').table;
const counted = require('./text').counted;

function stockLines(stock) {
  const rows = [];
  let takings = 0;
  stock.forEach((item, there, sold) => {
    takings += sold * item.price;
    rows.push([item.words, money.shown(item.price), String(there), String(sold), money.shown(sold * item.price)]);
  });
  const columns = [
    { head: 'item', number: false }, { head: 'price', number: true }, { head: 'left', number: true },
    { head: 'sold', number: true }, { head: 'takings', number: true },
  ];
  return table(columns, rows).concat([`takings: ${money.shown(takings)}`]);
}

function customerLines(orders) {
  const rows = [];
  orders.forEachCustomer((who, account) => rows.push([who, String(account.shipped), money.shown(account.total)]));
  const columns = [{ head: 'customer', number: false }, { head: 'orders', number: true }, { head: 'pays', number: true }];
  return rows.length === 0 ? ['no customers'] : table(columns, rows);
}

exports.report = (stock, orders) =>
  stockLines(stock).concat([''], customerLines(orders), ['', `${counted(orders.waiting(), 'order')} waiting`]);
