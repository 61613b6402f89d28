// What a client asks, and what it makes of what it is told, against a node that answers by a script.
import assert from 'node:assert/strict';
import { test } from 'node:test';
import {
  ClientClosed,
  DeadlineExceeded,
  InvalidArgument,
  Malformed,
  Refused,
  SessionInUse,
  connect,
} from '../index.js';
import { FLAG_0, SEEN_NOTHING, SESSION, STORED, ScriptedNode, learned, refused, reply, row } from './scripted-node.js';

const READ_FLAG = '06';
const COLLECT = '02';
const STORE_A = '010161';
const STORE_B = '010162';
const NOTHING = Buffer.alloc(0);

// Views that differ.
const VIEWS = [
  `020001${row(1, 1, 'a')}`,
  `020002${row(1, 1, 'a')}${row(2, 1, 'b')}`,
  `020002${row(1, 2, 'c')}${row(2, 1, 'b')}`,
];

// What a client asks first where the session's last request is 4.
const LEARNING = [
  [0, READ_FLAG],
  [5, READ_FLAG],
];

async function scripted(context, steps) {
  const node = await new ScriptedNode(steps).listen();
  context.after(() => node.close());
  return node;
}

// A reply with each view to requests from the first one on.
const replies = (first, views) => views.map((view, place) => reply(first + place, view));

// What a client asks by collects under these numbers.
const collectsOf = (...numbers) => numbers.map((number) => [number, COLLECT]);

// A node of whose session the last request is 4, and what it says from request 6 on.
const nodeOf = (context, ...steps) => scripted(context, [...learned(4), ...steps]);

async function clientOf(context, node, timeout = 5_000) {
  const client = await connect(node.address, SESSION, { timeout });
  context.after(() => client.close());
  return client;
}

const text = (row) => row && Buffer.from(row.text).toString();

const isLate = (isPending) => (error) => error instanceof DeadlineExceeded && error.isPending === isPending;

test('requests are numbered from the last one', async (context) => {
  const node = await nodeOf(context, reply(6, STORED), reply(7, SEEN_NOTHING));
  const client = await clientOf(context, node);
  await client.store('a');
  assert.deepEqual(await client.collect(), []);
  assert.deepEqual(node.asks, [...LEARNING, [6, STORE_A], [7, COLLECT]]);
});

test('a request of an earlier client takes no write with it', async (context) => {
  const steps = [refused(0, 11, 4), reply(5, STORED), refused(0, 11, 5), reply(6, FLAG_0), reply(7, STORED)];
  const node = await scripted(context, steps);
  await (await clientOf(context, node)).store('b');
  assert.deepEqual(node.asks, [...LEARNING, [0, READ_FLAG], [6, READ_FLAG], [7, STORE_B]]);
});

test('a number that another command has taken is left to it', async (context) => {
  const fences = [refused(0, 11, 4), refused(5, 11, 5), refused(6, 11, 8), reply(9, FLAG_0)];
  const node = await scripted(context, [...fences, reply(10, STORED)]);
  await (await clientOf(context, node)).store('b');
  assert.deepEqual(node.asks, [...LEARNING, [6, READ_FLAG], [9, READ_FLAG], [10, STORE_B]]);
});

test('a number beyond the next one is of another session', async (context) => {
  const node = await scripted(context, [refused(0, 11, 4), refused(5, 12, 2)]);
  await assert.rejects(connect(node.address, SESSION), SessionInUse);
});

test('a broken connection leaves the number', async (context) => {
  const node = await nodeOf(context, null, reply(6, STORED));
  await (await clientOf(context, node)).store('a');
  assert.deepEqual(node.asks, [...LEARNING, [6, STORE_A], [6, STORE_A]]);
});

test('what passes is asked again', async (context) => {
  const passing = [2, 4, 13, 15, 17, 18];
  const node = await nodeOf(context, ...passing.map((number) => refused(6, number)), reply(6, STORED));
  await (await clientOf(context, node)).store('a');
  assert.deepEqual(node.asks, [...LEARNING, ...Array(7).fill([6, STORE_A])]);
});

test('what passes until the deadline is its cause', async (context) => {
  const node = await nodeOf(context, ...Array(100).fill(refused(6, 4)));
  const client = await clientOf(context, node);
  await assert.rejects(
    client.store('a', { timeout: 100 }),
    ({ cause }) => cause instanceof Refused && cause.refusal === 'NotJoined',
  );
});

test('a late request is settled before the next one', async (context) => {
  const node = await nodeOf(context, NOTHING, NOTHING, reply(6, STORED), reply(7, STORED));
  const client = await clientOf(context, node);
  await assert.rejects(client.store('a', { timeout: 50 }), isLate(true));
  await assert.rejects(client.store('b', { timeout: 50 }), isLate(false));
  await client.store('b');
  assert.deepEqual(node.asks, [...LEARNING, [6, STORE_A], [6, STORE_A], [6, STORE_A], [7, STORE_B]]);
});

test('a late request that is refused leaves its number', async (context) => {
  const node = await nodeOf(context, NOTHING, refused(6, 14), reply(6, STORED));
  const client = await clientOf(context, node);
  await assert.rejects(client.add(9, { timeout: 50 }), isLate(true));
  await client.store('b');
  assert.deepEqual(node.asks.slice(3), [
    [6, '0700000009'],
    [6, STORE_B],
  ]);
});

test('a late reading whose number another command has taken is forgotten', async (context) => {
  for (const told of [refused(6, 11, 6), reply(6, STORED)]) {
    const node = await nodeOf(context, NOTHING, told, ...learned(6), reply(8, STORED));
    const client = await clientOf(context, node);
    await assert.rejects(client.collect({ timeout: 50 }), isLate(true));
    await client.store('b');
    assert.deepEqual(node.asks.slice(3), [
      [6, COLLECT],
      [0, READ_FLAG],
      [7, READ_FLAG],
      [8, STORE_B],
    ]);
  }
});

test('a late write whose number another command has taken is told', async (context) => {
  for (const told of [refused(6, 11, 6), reply(6, FLAG_0)]) {
    const node = await nodeOf(context, NOTHING, told, ...learned(6), reply(8, STORED));
    const client = await clientOf(context, node);
    await assert.rejects(client.store('a', { timeout: 50 }), isLate(true));
    await assert.rejects(client.store('b'), SessionInUse);
    await client.store('b');
    assert.deepEqual(node.asks.slice(3), [
      [6, STORE_A],
      [0, READ_FLAG],
      [7, READ_FLAG],
      [8, STORE_B],
    ]);
  }
});

test('a request that was never sent is not pending', async (context) => {
  const node = await nodeOf(context, null);
  const client = await clientOf(context, node);
  node.close();
  await assert.rejects(client.collect({ timeout: 50 }), isLate(true));
  await assert.rejects(client.store('a', { timeout: 50 }), isLate(false));
});

test('an abort is as a deadline that has passed', async (context) => {
  const node = await nodeOf(context, NOTHING);
  const client = await clientOf(context, node);
  await assert.rejects(client.store('a', { signal: AbortSignal.timeout(50) }), isLate(true));
  await assert.rejects(client.store('b', { signal: AbortSignal.abort() }), isLate(false));
});

test('refused for good', async (context) => {
  const node = await nodeOf(context, refused(6, 14), reply(6, STORED));
  const client = await clientOf(context, node);
  await assert.rejects(
    client.add(9),
    (error) => error instanceof Refused && error.refusal === 'SetFull' && error.carried === 0n,
  );
  await client.store('b');
  assert.deepEqual(node.asks.slice(2), [
    [6, '0700000009'],
    [6, STORE_B],
  ]);
});

test('another client in the session', async (context) => {
  for (const told of [refused(6, 11, 9), refused(6, 12, 2), reply(6, SEEN_NOTHING)]) {
    const node = await nodeOf(context, told, ...learned(9), reply(11, STORED));
    const client = await clientOf(context, node);
    await assert.rejects(client.store('a'), SessionInUse);
    await client.store('b');
    assert.deepEqual(node.asks.slice(2), [
      [6, STORE_A],
      [0, READ_FLAG],
      [10, READ_FLAG],
      [11, STORE_B],
    ]);
  }
});

test('what is told of others is passed over', async (context) => {
  const others = [reply(5, STORED), reply(6, STORED, 8), refused(7, 13), refused(6, 10)];
  const node = await nodeOf(context, Buffer.concat([...others, reply(6, '03000000000000002a')]));
  assert.equal(await (await clientOf(context, node)).readMax(), 42n);
});

test('malformed frames end the connection', async (context) => {
  const node = await nodeOf(context, Buffer.from('00010001ff', 'hex'), reply(6, STORED), reply(7, STORED));
  const client = await clientOf(context, node);
  await assert.rejects(client.store('a'), (error) => error instanceof Malformed && error.fault === 'TooLarge');
  await client.store('b');
  assert.deepEqual(node.asks.slice(2), [
    [6, STORE_A],
    [6, STORE_A],
    [7, STORE_B],
  ]);
});

test('a last request that no node has', async (context) => {
  const node = await scripted(context, [refused(0, 11, 2n ** 64n - 1n)]);
  await assert.rejects(connect(node.address, SESSION), Malformed);
});

test('addresses are tried in turn', async (context) => {
  const gone = await new ScriptedNode([]).listen();
  gone.close();
  const node = await nodeOf(context, reply(6, STORED));
  const client = await connect([gone.address, node.address], SESSION);
  await client.store('a');
  client.close();
  assert.deepEqual(node.asks, [...LEARNING, [6, STORE_A]]);
});

test('arguments are looked at before anything is sent', async (context) => {
  const node = await nodeOf(context);
  const client = await clientOf(context, node);
  for (const text of [new Uint8Array(65), '\ud800', 5, true, null, undefined, [97], new ArrayBuffer(1)]) {
    await assert.rejects(client.store(text), InvalidArgument);
  }
  for (const number of [2n ** 64n, 2 ** 53, -1, -1n, 1.5, NaN, true, null, undefined, '1']) {
    await assert.rejects(client.max(number), InvalidArgument);
    await assert.rejects(connect(node.address, number), InvalidArgument);
  }
  await assert.rejects(client.add(2 ** 32), InvalidArgument);
  for (const timeout of [0, -1, NaN, 2 ** 31, '1', null]) {
    await assert.rejects(connect(node.address, SESSION, { timeout }), InvalidArgument);
  }
  await assert.rejects(client.flag({ timeout: 0 }), InvalidArgument);
  await assert.rejects(client.snapshot({ timeout: 0 }), InvalidArgument);
  for (const addresses of [[], '7001', '127.0.0.1:0', '127.0.0.1:65536', 7001, [7001], null, undefined]) {
    await assert.rejects(connect(addresses, SESSION), InvalidArgument);
  }
  assert.deepEqual(node.asks, LEARNING);
});

test('a closed client', async (context) => {
  const node = await nodeOf(context, NOTHING);
  const client = await clientOf(context, node);
  const called = client.collect();
  setTimeout(() => client.close(), 50);
  await assert.rejects(called, ClientClosed);
  await assert.rejects(client.collect(), ClientClosed);
});

test('calls take turns', async (context) => {
  const numbers = Array.from({ length: 10 }, (_, place) => 6 + place);
  const node = await nodeOf(context, ...numbers.map((number) => reply(number, STORED)));
  const client = await clientOf(context, node);
  await Promise.all(numbers.map(() => client.store('a')));
  assert.deepEqual(
    node.asks.slice(2),
    numbers.map((number) => [number, STORE_A]),
  );
});

test('a watch tells what changed', async (context) => {
  const node = await nodeOf(context, ...replies(6, VIEWS), NOTHING);
  const watch = (await clientOf(context, node, 200)).watch(1);
  const seen = [];
  await assert.rejects(async () => {
    for await (const change of watch) {
      seen.push([change.node, text(change.old), text(change.new)]);
    }
  }, DeadlineExceeded);
  assert.deepEqual(seen, [
    [1, undefined, 'a'],
    [2, undefined, 'b'],
    [1, 'a', 'c'],
  ]);
});

test('a snapshot is what two collects in a row show', async (context) => {
  for (const [view, rows] of [
    [SEEN_NOTHING, []],
    [VIEWS[0], [{ node: 1, number: 1n, text: Uint8Array.from(Buffer.from('a')), max: 0n, flag: false, set: [] }]],
  ]) {
    const node = await nodeOf(context, ...replies(6, [view, view]), reply(8, STORED));
    const client = await clientOf(context, node);
    assert.deepEqual(await client.snapshot(), { rows, collects: 2 });
    await client.store('a');
    assert.deepEqual(node.asks.slice(2), [...collectsOf(6, 7), [8, STORE_A]]);
  }
});

test('a snapshot collects until two in a row agree', async (context) => {
  for (const first of VIEWS.slice(0, 2)) {
    const node = await nodeOf(context, ...replies(6, [first, VIEWS[2], VIEWS[2]]));
    const { rows, collects } = await (await clientOf(context, node)).snapshot();
    const shown = rows.map((row) => [row.node, row.number, text(row)]);
    assert.deepEqual(shown, [
      [1, 2n, 'c'],
      [2, 1n, 'b'],
    ]);
    assert.equal(collects, 3);
    assert.deepEqual(node.asks.slice(2), collectsOf(6, 7, 8));
  }
});

test('no two collects in a row agree', async (context) => {
  for (const numbers of [
    [6, 7],
    [6, 7, 8],
  ]) {
    const answered = numbers.length;
    const late = 6 + answered;
    const steps = [...replies(6, VIEWS.slice(0, answered)), NOTHING, reply(late, VIEWS[2]), reply(late + 1, STORED)];
    const node = await nodeOf(context, ...steps);
    const client = await clientOf(context, node);
    await assert.rejects(client.snapshot({ timeout: 300 }), (error) => {
      assert.equal(error.message, `no two in a row of ${answered} collects agree, since others write`);
      return isLate(true)(error) && error.cause instanceof Error;
    });
    await client.store('a');
    assert.deepEqual(node.asks.slice(2), [...collectsOf(...numbers, late, late), [late + 1, STORE_A]]);
  }
});

test('too few collects to compare', async (context) => {
  for (const answered of [0, 1]) {
    const node = await nodeOf(context, ...replies(6, VIEWS.slice(0, answered)), NOTHING);
    const client = await clientOf(context, node);
    await assert.rejects(
      client.snapshot({ timeout: 200 }),
      (error) => isLate(true)(error) && error.message.startsWith('no answer in time'),
    );
  }
});

test('all collects of a snapshot have one deadline', async (context) => {
  const views = Array.from({ length: 20_000 }, (_, number) => `020001${row(1, number, 'a')}`);
  const node = await nodeOf(context, ...replies(6, views));
  const client = await clientOf(context, node);
  await assert.rejects(
    client.snapshot({ timeout: 100 }),
    ({ message }) => /^no two in a row of \d+ collects agree, since others write$/.test(message),
  );
  const asks = node.asks.slice(2);
  assert(asks.length < views.length);
  assert.deepEqual(
    asks,
    asks.map((_, place) => [6 + place, COLLECT]),
  );
});

test('a connection that breaks between the collects of a snapshot', async (context) => {
  const node = await nodeOf(context, reply(6, VIEWS[0]), null, reply(7, VIEWS[0]));
  assert.equal((await (await clientOf(context, node)).snapshot()).collects, 2);
  assert.deepEqual(node.asks.slice(2), collectsOf(6, 7, 7));
});

test('another call comes between the collects of a snapshot', async (context) => {
  const node = await nodeOf(context, reply(6, VIEWS[0]), reply(7, STORED), ...replies(8, [VIEWS[2], VIEWS[2]]));
  const client = await clientOf(context, node);
  const [{ collects }] = await Promise.all([client.snapshot(), client.store('a')]);
  assert.equal(collects, 3);
  assert.deepEqual(node.asks.slice(2), [[6, COLLECT], [7, STORE_A], ...collectsOf(8, 9)]);
});
