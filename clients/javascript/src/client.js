// A client of one node: one request at a time, each under a number of its own, asked again until it is answered.
import { Connection } from './connection.js';
import { Deadline } from './deadline.js';
import {
  CcnodeError,
  ClientClosed,
  DeadlineExceeded,
  InvalidArgument,
  Malformed,
  Refused,
  SessionInUse,
} from './errors.js';
import { takeSnapshot } from './snapshot.js';
import { Watch } from './watch.js';
import * as wire from './wire.js';

const DEFAULT_TIMEOUT = 10_000;
// Timers take no more: 24 days.
const LONGEST_TIMEOUT = 2 ** 31 - 1;

// A request without an answer for so many milliseconds is asked again over a new connection.
const ATTEMPT = 2_000;
// A client pauses so many milliseconds before it asks again, twice as many each time up to the greatest.
const FIRST_PAUSE = 10;
const LONGEST_PAUSE = 320;
// The node asks for patience: it may take the same request later.
const PASSING = new Set(['NotEntered', 'NotJoined', 'Busy', 'OutboxFull', 'NoMemory', 'QueueFull']);

export async function connect(addresses, session, options = {}) {
  const client = new Client(addresses, session, options);
  try {
    await client._open(options.signal);
  } catch (error) {
    client.close();
    throw error;
  }
  return client;
}

export class Client {
  #addresses;
  #session;
  #timeout;
  // Resolves once the calls so far have ended.
  #turn = Promise.resolve();
  #connection;
  // Which address is tried next.
  #place = 0;
  #isClosed = false;
  // The number of the next request, once that is known.
  #next;
  // A request that was sent, and of which nobody knows yet what became.
  #pending;

  constructor(addresses, session, { timeout = DEFAULT_TIMEOUT } = {}) {
    this.#addresses = parseAll(addresses);
    this.#session = wire.sessionOf(session);
    this.#timeout = milliseconds(timeout);
  }

  async store(text, options) {
    await this.#call(wire.store(text), options);
  }

  async collect(options) {
    return this.#call(wire.COLLECT, options);
  }

  async snapshot(options) {
    const deadline = this.#deadline(options);
    return takeSnapshot(() => this.#callBy(deadline, wire.COLLECT));
  }

  async max(number, options) {
    await this.#call(wire.writeMax(number), options);
  }

  async readMax(options) {
    return this.#call(wire.READ_MAX, options);
  }

  async flag(options) {
    await this.#call(wire.SET_FLAG, options);
  }

  async readFlag(options) {
    return this.#call(wire.READ_FLAG, options);
  }

  async add(number, options) {
    await this.#call(wire.add(number), options);
  }

  async readSet(options) {
    return this.#call(wire.READ_SET, options);
  }

  watch(interval, options) {
    return new Watch(() => this.collect(options), milliseconds(interval));
  }

  close() {
    this.#isClosed = true;
    this.#disconnect();
  }

  /** Learns the session's next number. `connect` calls it. */
  async _open(signal) {
    const deadline = new Deadline(this.#timeout, signal);
    await this.#inTurn(deadline, () => this.#learn(deadline));
  }

  #deadline(options = {}) {
    return new Deadline(milliseconds(options.timeout ?? this.#timeout), options.signal);
  }

  async #call(command, options) {
    return this.#callBy(this.#deadline(options), command);
  }

  async #callBy(deadline, command) {
    return this.#inTurn(deadline, () => this.#request(command, deadline));
  }

  async #request(command, deadline) {
    let isAsked = false;
    try {
      await this.#settle(deadline);
      const number = this.#next ?? (await this.#learn(deadline));
      isAsked = true;
      return await this.#answered(number, command, deadline);
    } catch (error) {
      if (error instanceof DeadlineExceeded) {
        error.isPending = isAsked && this.#pending !== undefined;
      }
      throw error;
    }
  }

  // Does the work once the calls before it have ended.
  async #inTurn(deadline, work) {
    const before = this.#turn;
    const run = async () => {
      try {
        await deadline.race((resolve) => before.then(resolve));
      } catch (error) {
        throw new DeadlineExceeded(error);
      }
      return this.#clean(work);
    };
    const ended = run();
    // Of what they came to nothing is kept.
    this.#turn = Promise.allSettled([before, ended]).then(() => {});
    return ended;
  }

  async #clean(work) {
    try {
      return await work();
    } catch (error) {
      // What comes over this connection from now on belongs to a call that has ended.
      if (!(error instanceof Refused)) {
        this.#disconnect();
      }
      throw error;
    }
  }

  // Brings the request of an earlier call, of which nobody knows what became, to its end.
  async #settle(deadline) {
    if (this.#pending === undefined) {
      return;
    }
    const { number, command } = this.#pending;
    try {
      await this.#answered(number, command, deadline);
    } catch (error) {
      // Nobody waits for what a reading would have told any more.
      const isOver = error instanceof Refused || (error instanceof SessionInUse && wire.isReading(command));
      if (!isOver) {
        throw error;
      }
    }
  }

  // The number of the next request, which no earlier client's request can take any more. A request that an earlier client gave
  // up may still be on its way under the number after the last one. So that number goes to a reading, which does no harm: once
  // it is answered, the other one has been done, or never will be.
  async #learn(deadline) {
    let last = await this.#lastRequest(deadline);
    for (;;) {
      const told = await this.#told(last + 1n, wire.READ_FLAG, deadline);
      if (told.answer?.kind === 'Flag') {
        this.#next = last + 2n;
        return this.#next;
      }
      // Else the other one has taken the number, or a later one.
      last = told.answer === undefined ? lastTold(told) : await this.#lastRequest(deadline);
    }
  }

  async #lastRequest(deadline) {
    const told = await this.#ask(0n, wire.READ_FLAG, deadline);
    if (told.refusal === undefined) {
      throw new SessionInUse('request 0, which no node takes, was answered');
    }
    return lastTold(told);
  }

  // What the answer to a request has: one of the command's kind.
  async #answered(number, command, deadline) {
    const told = await this.#told(number, command, deadline);
    if (told.refusal === 'Stale' || told.refusal === 'Skip') {
      throw notNext(told);
    }
    if (told.answer === undefined) {
      this.#next = number;
      throw new Refused(told.refusal, told.carried);
    }
    if (told.answer.kind !== command.answer) {
      throw new SessionInUse(`request ${number} got an answer to another command`);
    }
    this.#next = number + 1n;
    return told.answer.value;
  }

  // What becomes of a request, which is pending once it was sent until the node says so.
  async #told(number, command, deadline) {
    const told = await this.#ask(number, command, deadline);
    this.#pending = undefined;
    this.#next = undefined;
    return told;
  }

  // What the node says of a request: its answer, or a refusal that stands. Until then it is asked again.
  async #ask(number, command, deadline) {
    for (let pause = FIRST_PAUSE; !this.#isClosed; pause = Math.min(2 * pause, LONGEST_PAUSE)) {
      let cause;
      try {
        const told = await this.#exchange(number, command, deadline.sooner(ATTEMPT));
        if (!PASSING.has(told.refusal)) {
          return told;
        }
        cause = new Refused(told.refusal, told.carried);
      } catch (error) {
        if (error instanceof CcnodeError) {
          throw error;
        }
        this.#disconnect();
        cause = error;
      }
      await deadline.pause(pause);
      if (deadline.left() === 0) {
        throw new DeadlineExceeded(cause);
      }
    }
    throw new ClientClosed('the client was closed');
  }

  // What the node says of a request to one sending of it. What it says of others is passed over.
  async #exchange(number, command, deadline) {
    const connection = await this.#connected(deadline);
    if (number !== 0n) {
      this.#pending = { number, command };
    }
    connection.send(wire.encodeAsk(this.#session, number, command));
    for (;;) {
      const told = await connection.receive(deadline);
      const isAboutThis = told.session === this.#session && told.request === number;
      // A request that was taken before is answered again.
      if (isAboutThis && told.refusal !== 'Repeat') {
        return told;
      }
    }
  }

  async #connected(deadline) {
    if (this.#connection === undefined) {
      const address = this.#addresses[this.#place % this.#addresses.length];
      this.#place += 1;
      this.#connection = await Connection.open(address, deadline);
    }
    if (this.#isClosed) {
      throw new Error('the client was closed');
    }
    return this.#connection;
  }

  #disconnect() {
    this.#connection?.close();
    this.#connection = undefined;
  }
}

// The session's last request, by a refusal that tells it.
function lastTold(told) {
  if (told.refusal === 'Skip') {
    throw notNext(told);
  }
  if (told.refusal !== 'Stale') {
    throw new Refused(told.refusal, told.carried);
  }
  if (told.carried > wire.MAX_REQUEST) {
    throw new Malformed('TooLarge');
  }
  return told.carried;
}

const notNext = ({ request, carried }) =>
  new SessionInUse(`request ${request} isn't next: the session's last one is ${carried}`);

function milliseconds(timeout) {
  if (!(typeof timeout === 'number' && timeout > 0 && timeout <= LONGEST_TIMEOUT)) {
    throw new InvalidArgument(`a time is above 0 and at most ${LONGEST_TIMEOUT} ms, not ${String(timeout)}`);
  }
  return timeout;
}

function parseAll(addresses) {
  const texts = Array.isArray(addresses) ? addresses : [addresses];
  if (texts.length === 0) {
    throw new InvalidArgument('an address is needed');
  }
  return texts.map(parse);
}

function parse(text) {
  const parts = typeof text === 'string' ? /^(.+):([0-9]{1,5})$/.exec(text) : null;
  const port = Number(parts?.[2]);
  if (!(port > 0 && port < 65_536)) {
    throw new InvalidArgument(`an address is HOST:PORT, not ${String(text)}`);
  }
  return { host: parts[1].replace(/^\[(.*)\]$/, '$1'), port };
}
