// A node that answers asks by a script, and keeps what it was asked.
import { createServer } from 'node:net';

export const SESSION = 7;
export const STORED = '01';
export const FLAG_0 = '0400';
export const SEEN_NOTHING = '020000';

const hex = (number, bytes) => BigInt(number).toString(16).padStart(2 * bytes, '0');
const frame = (body) => Buffer.from(hex(body.length / 2, 4) + body, 'hex');

export const reply = (request, answer, session = SESSION) => frame(`04${hex(session, 8)}${hex(request, 8)}${answer}`);

export const refused = (request, refusal, carried = 0, session = SESSION) =>
  frame(`05${hex(session, 8)}${hex(request, 8)}${hex(refusal, 1)}${hex(carried, 8)}`);

/** A row of a view. */
export const row = (node, number, text) =>
  hex(node, 4) + hex(number, 8) + hex(text.length, 1) + Buffer.from(text).toString('hex') + hex(0, 10);

/** The steps by which a client learns the session's last request, and settles the number after it. */
export const learned = (last) => [refused(0, 11, last), reply(last + 1, FLAG_0)];

/**
 * One step for each ask that comes, over whichever connection: bytes are sent, null closes the connection, and no bytes leave
 * the client waiting. After the last step each connection is closed.
 */
export class ScriptedNode {
  /** The number and the command of each ask. */
  asks = [];
  #steps;
  #server;

  constructor(steps) {
    this.#steps = [...steps];
    this.#server = createServer((stream) => this.#serve(stream));
  }

  async listen() {
    await new Promise((resolve) => this.#server.listen(0, '127.0.0.1', resolve));
    this.address = `127.0.0.1:${this.#server.address().port}`;
    return this;
  }

  close() {
    this.#server.close();
  }

  #serve(stream) {
    let held = Buffer.alloc(0);
    stream.on('error', () => {});
    stream.on('data', (piece) => {
      held = Buffer.concat([held, piece]);
      while (held.length >= 4 && held.length >= 4 + held.readUInt32BE(0)) {
        const end = 4 + held.readUInt32BE(0);
        this.#take(held.subarray(4, end), stream);
        held = held.subarray(end);
      }
    });
  }

  #take(body, stream) {
    this.asks.push([Number(body.readBigUInt64BE(9)), body.subarray(17).toString('hex')]);
    const step = this.#steps.length > 0 ? this.#steps.shift() : null;
    if (step === null) {
      stream.destroy();
    } else {
      stream.write(step);
    }
  }
}
