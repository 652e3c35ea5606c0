'use strict';

// A day at the depot.

module.exports = [
  '# what is for sale',
  'item nail 0.05 "nails, by piece"',
  'item hammer 12.5 "hammer"',
  'item saw 19.99',
  'item glue 3.123',
  'item nail 1',
  '',
  'at 9 order ann hammer 1, nail 100',
  'at 8 deliver nail 500',
  'at 10 deliver hammer 2',
  'at 10 order ben hammer 1',
  'at 11 order cid saw 1, hammer 1',
  'at 11 order ann nail 250',
  'at 12 cancel cid',
  'at 12 cancel dan',
  'at 13 order eve paint 2',
  'at 14 deliver saw 3',
  'at 14 order ben saw 2, nail 149',
  'at 15 order fay saw 4',
  'at 16 lend ben saw',
  'at 16 order gus saw 1.5',
  'at 17 deliver "saw" 1',
  'at 18 order ben nail 1 nail 2',
  'sell everything',
].join('\n');
