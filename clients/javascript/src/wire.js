// The bytes of asks, and what the bytes of replies and refusals mean (docs/FORMATS.md).
import { InvalidArgument, Malformed, REFUSALS } from './errors.js';

const MAX_BODY = 65_536;
const MAX_TEXT = 64;
const MAX_ROWS = 256;
const MAX_ROW_SET = 32;
const MAX_SET = 8_192;
const MAX_U32 = 2n ** 32n - 1n;
const MAX_U64 = 2n ** 64n - 1n;

const ASK = 3;
const REPLY = 4;
const REFUSED = 5;

/** No node takes a request beyond it. */
export const MAX_REQUEST = 2n ** 62n;

/** How many bytes stand before the body of a frame. */
export const PREFIX = 4;

/** The bytes of a command, and the kind of answer that it gets. */
const command = (answer, ...bytes) => Object.freeze({ answer, encoded: Buffer.concat(bytes) });
const kind = (number) => Buffer.from([number]);

export const COLLECT = command('Seen', kind(2));
export const READ_MAX = command('Max', kind(4));
export const SET_FLAG = command('Stored', kind(5));
export const READ_FLAG = command('Flag', kind(6));
export const READ_SET = command('Set', kind(8));

/** Whether a command changes nothing. */
export const isReading = ({ answer }) => answer !== 'Stored';

/** @param {string | Uint8Array} text a string is taken as UTF-8 */
export function store(text) {
  if (typeof text !== 'string' && !(text instanceof Uint8Array)) {
    throw new InvalidArgument(`a text is a string or a Uint8Array, not ${typeof text}`);
  }
  const encoded = Buffer.from(text);
  if (encoded.length > MAX_TEXT) {
    throw new InvalidArgument(`a text has ${MAX_TEXT} bytes at most, not ${encoded.length}`);
  }
  // Half of a pair of surrogates has no UTF-8.
  if (typeof text === 'string' && encoded.toString() !== text) {
    throw new InvalidArgument('a text that is no UTF-8');
  }
  return command('Stored', kind(1), kind(encoded.length), encoded);
}

/** @param {number | bigint} number */
export function writeMax(number) {
  const field = Buffer.alloc(8);
  field.writeBigUInt64BE(whole(number, MAX_U64, 'a maximum'));
  return command('Stored', kind(3), field);
}

/** @param {number | bigint} number */
export function add(number) {
  const field = Buffer.alloc(4);
  field.writeUInt32BE(Number(whole(number, MAX_U32, 'a number of a set')));
  return command('Stored', kind(7), field);
}

/** The session as a bigint. */
export const sessionOf = (number) => whole(number, MAX_U64, 'a session');

// A whole number from 0 to the greatest as a bigint. A number above 2^53 would have lost digits by now.
function whole(number, greatest, what) {
  const isWhole = typeof number === 'bigint' || Number.isSafeInteger(number);
  if (!isWhole || number < 0 || number > greatest) {
    throw new InvalidArgument(`${what} is a whole number from 0 to ${greatest}, not ${String(number)}`);
  }
  return BigInt(number);
}

/** The frame of an ask. */
export function encodeAsk(session, request, { encoded }) {
  const head = Buffer.alloc(21);
  head.writeUInt32BE(17 + encoded.length, 0);
  head.writeUInt8(ASK, 4);
  head.writeBigUInt64BE(session, 5);
  head.writeBigUInt64BE(request, 13);
  return Buffer.concat([head, encoded]);
}

/** The length of a frame's body, by the frame's first four bytes. */
export function decodeLength(prefix) {
  const length = prefix.readUInt32BE(0);
  if (length === 0) {
    throw new Malformed('Short');
  }
  if (length > MAX_BODY) {
    throw new Malformed('TooLarge');
  }
  return length;
}

/** What a node tells a client by the body of a frame: Malformed for any other bytes. */
export function decodeBody(body) {
  const reader = new Reader(body);
  const frameKind = reader.u8();
  if (frameKind !== REPLY && frameKind !== REFUSED) {
    throw new Malformed('BadKind');
  }
  const about = { session: reader.u64(), request: reader.u64() };
  const told =
    frameKind === REPLY
      ? { ...about, answer: readAnswer(reader) }
      : { ...about, refusal: readRefusal(reader), carried: reader.u64() };
  reader.end();
  return told;
}

// Takes fields from the front of bytes.
class Reader {
  #data;
  #at = 0;

  constructor(data) {
    this.#data = data;
  }

  take(count) {
    const end = this.#at + count;
    if (end > this.#data.length) {
      throw new Malformed('Short');
    }
    const taken = this.#data.subarray(this.#at, end);
    this.#at = end;
    return taken;
  }

  u8() {
    return this.take(1).readUInt8(0);
  }

  u16() {
    return this.take(2).readUInt16BE(0);
  }

  u32() {
    return this.take(4).readUInt32BE(0);
  }

  u64() {
    return this.take(8).readBigUInt64BE(0);
  }

  flag() {
    const byte = this.u8();
    if (byte > 1) {
      throw new Malformed('BadKind');
    }
    return byte === 1;
  }

  ascending(count) {
    const numbers = [];
    for (let before = -1; numbers.length < count; before = numbers.at(-1)) {
      numbers.push(above(this.u32(), before));
    }
    return numbers;
  }

  end() {
    if (this.#at < this.#data.length) {
      throw new Malformed('Trailing');
    }
  }
}

function atMost(count, most) {
  if (count > most) {
    throw new Malformed('TooLarge');
  }
  return count;
}

function above(number, before) {
  if (number <= before) {
    throw new Malformed('NotAscending');
  }
  return number;
}

function readRefusal(reader) {
  const refusal = REFUSALS[reader.u8() - 1];
  if (refusal === undefined) {
    throw new Malformed('BadKind');
  }
  return refusal;
}

function readAnswer(reader) {
  switch (reader.u8()) {
    case 1:
      return { kind: 'Stored', value: undefined };
    case 2:
      return { kind: 'Seen', value: readRows(reader) };
    case 3:
      return { kind: 'Max', value: reader.u64() };
    case 4:
      return { kind: 'Flag', value: reader.flag() };
    case 5:
      return { kind: 'Set', value: reader.ascending(atMost(reader.u16(), MAX_SET)) };
    default:
      throw new Malformed('BadKind');
  }
}

function readRows(reader) {
  const count = atMost(reader.u16(), MAX_ROWS);
  const rows = [];
  // 0 stands before the first node.
  for (let before = 0; rows.length < count; before = rows.at(-1).node) {
    rows.push(readRow(above(reader.u32(), before), reader));
  }
  return rows;
}

function readRow(node, reader) {
  return {
    node,
    number: reader.u64(),
    // A copy: the frame's own memory is let go.
    text: Uint8Array.from(reader.take(atMost(reader.u8(), MAX_TEXT))),
    max: reader.u64(),
    flag: reader.flag(),
    set: reader.ascending(atMost(reader.u8(), MAX_ROW_SET)),
  };
}
