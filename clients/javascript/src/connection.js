// One connection to a node.
import { connect } from 'node:net';
import { PREFIX, decodeBody, decodeLength } from './wire.js';

/** Frames to a node and from it. */
export class Connection {
  #socket;
  // What was read and isn't used yet.
  #held = Buffer.alloc(0);
  // Why nothing more comes.
  #broken;
  #wake = () => {};

  constructor(socket) {
    this.#socket = socket;
    socket.on('readable', () => this.#wake());
    socket.on('end', () => this.#break(new Error('the node has closed the connection')));
    socket.on('error', (error) => this.#break(error));
    socket.on('close', () => this.#break(new Error('the connection is closed')));
  }

  /** A connection to the address, made before the deadline is over. */
  static async open({ host, port }, deadline) {
    const socket = connect({ host, port, noDelay: true });
    try {
      await deadline.race((resolve, reject) => {
        socket.once('connect', resolve);
        socket.once('error', reject);
      });
    } catch (error) {
      socket.on('error', () => {});
      socket.destroy();
      throw error;
    }
    return new Connection(socket);
  }

  send(frame) {
    this.#socket.write(frame);
  }

  /** The next frame. Malformed where the bytes spell none that a client is sent. */
  async receive(deadline) {
    for (;;) {
      const told = this.#next();
      if (told !== undefined) {
        return told;
      }
      if (deadline.left() === 0) {
        throw deadline.reason;
      }
      // Bytes are read where somebody waits for them alone, so a flood fills no memory.
      const piece = this.#socket.read();
      if (piece !== null) {
        this.#held = Buffer.concat([this.#held, piece]);
      } else if (this.#broken !== undefined) {
        throw this.#broken;
      } else {
        await deadline.race((resolve) => {
          this.#wake = resolve;
        });
      }
    }
  }

  close() {
    this.#socket.destroy();
  }

  #next() {
    if (this.#held.length < PREFIX) {
      return undefined;
    }
    const end = PREFIX + decodeLength(this.#held);
    if (this.#held.length < end) {
      return undefined;
    }
    const body = this.#held.subarray(PREFIX, end);
    this.#held = this.#held.subarray(end);
    return decodeBody(body);
  }

  #break(error) {
    this.#broken ??= error;
    this.#wake();
  }
}
