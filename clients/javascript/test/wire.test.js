// The encoder and the decoder against clients/vectors.json.
import assert from 'node:assert/strict';
import { readFileSync } from 'node:fs';
import { test } from 'node:test';
import { InvalidArgument, Malformed } from '../index.js';
import { REFUSALS } from '../src/errors.js';
import * as wire from '../src/wire.js';

const vectors = JSON.parse(readFileSync(new URL('../../vectors.json', import.meta.url), 'utf8'));

const bytes = (hex) => Buffer.from(hex.replaceAll(' ', ''), 'hex');

const COMMANDS = {
  store: (argument) => wire.store(bytes(argument)),
  collect: () => wire.COLLECT,
  max: (argument) => wire.writeMax(BigInt(argument)),
  read_max: () => wire.READ_MAX,
  flag: () => wire.SET_FLAG,
  read_flag: () => wire.READ_FLAG,
  add: (argument) => wire.add(Number(argument)),
  read_set: () => wire.READ_SET,
};

const rowOf = ({ node, number, text, max, flag, set }) => ({
  node: Number(node),
  number: BigInt(number),
  text: Uint8Array.from(bytes(text)),
  max: BigInt(max),
  flag: flag === '1',
  set: set.map(Number),
});

const VALUES = {
  Stored: () => undefined,
  Seen: ({ rows }) => rows.map(rowOf),
  Max: ({ max }) => BigInt(max),
  Flag: ({ flag }) => flag === '1',
  Set: ({ set }) => set.map(Number),
};

function decode(frame) {
  assert.equal(wire.decodeLength(frame), frame.length - wire.PREFIX);
  return wire.decodeBody(frame.subarray(wire.PREFIX));
}

const hasFault = (fault) => (error) => error instanceof Malformed && error.fault === fault;

for (const vector of vectors.asks) {
  test(`ask: ${vector.name}`, () => {
    const command = COMMANDS[vector.command](vector.argument);
    const frame = wire.encodeAsk(BigInt(vector.session), BigInt(vector.request), command);
    assert.equal(frame.toString('hex'), vector.frame.replaceAll(' ', ''));
  });
}

for (const vector of vectors.replies) {
  test(`reply: ${vector.name}`, () => {
    assert.deepEqual(decode(bytes(vector.frame)), {
      session: BigInt(vector.session),
      request: BigInt(vector.request),
      answer: { kind: vector.answer, value: VALUES[vector.answer](vector) },
    });
  });
}

for (const vector of vectors.refusals) {
  test(`refusal: ${vector.name}`, () => {
    assert.equal(REFUSALS[Number(vector.number) - 1], vector.name);
    assert.deepEqual(decode(bytes(vector.frame)), {
      session: 7n,
      request: 1n,
      refusal: vector.name,
      carried: BigInt(vector.carried),
    });
  });
}

for (const vector of vectors.malformed) {
  test(`malformed: ${vector.name}`, () => {
    assert.throws(() => decode(bytes(vector.frame)), hasFault(vector.fault));
  });
}

test('each reply and each refusal cut short', () => {
  for (const vector of [...vectors.replies, ...vectors.refusals]) {
    const body = bytes(vector.frame).subarray(wire.PREFIX);
    for (let length = 0; length < body.length; length += 1) {
      assert.throws(() => wire.decodeBody(body.subarray(0, length)), hasFault('Short'));
    }
  }
});

test('each byte changed', () => {
  for (const vector of vectors.replies) {
    const body = bytes(vector.frame).subarray(wire.PREFIX);
    for (let place = 0; place < body.length; place += 1) {
      for (let byte = 0; byte < 256; byte += 1) {
        const changed = Buffer.from(body);
        changed[place] = byte;
        try {
          wire.decodeBody(changed);
        } catch (error) {
          assert.ok(error instanceof Malformed, String(error));
        }
      }
    }
  }
});

test('arguments outside their limits', () => {
  for (const make of [
    () => wire.store(new Uint8Array(65)),
    () => wire.store('é'.repeat(33)),
    () => wire.store(7),
    () => wire.writeMax(-1),
    () => wire.writeMax(2n ** 64n),
    () => wire.writeMax(2 ** 53),
    () => wire.writeMax(0.5),
    () => wire.add(-1n),
    () => wire.add(2 ** 32),
    () => wire.add('1'),
    () => wire.sessionOf(2n ** 64n),
  ]) {
    assert.throws(make, InvalidArgument);
  }
});
