// What a call may reject with.

/** The refusals of a node by their number less one (docs/FORMATS.md, "Refusals"). */
export const REFUSALS = Object.freeze([
  'Left',
  'NotEntered',
  'AlreadyEntered',
  'NotJoined',
  'Old',
  'Gap',
  'NothingToAck',
  'TooManyNodes',
  'TooManySessions',
  'Repeat',
  'Stale',
  'Skip',
  'Busy',
  'SetFull',
  'OutboxFull',
  'Spent',
  'NoMemory',
  'QueueFull',
]);

export class CcnodeError extends Error {
  get name() {
    return this.constructor.name;
  }
}

export class InvalidArgument extends CcnodeError {}

export class ClientClosed extends CcnodeError {}

export class SessionInUse extends CcnodeError {}

export class DeadlineExceeded extends CcnodeError {
  /**
   * @param {unknown} cause why the last attempt failed
   * @param {string} [text]
   */
  constructor(cause, text = `no answer in time: ${cause instanceof Error ? cause.message : cause}`) {
    super(text, { cause });
    this.isPending = false;
  }
}

export class Malformed extends CcnodeError {
  /** @param {import('../index.js').Fault} fault what is wrong with the bytes */
  constructor(fault) {
    super(`malformed frame: ${fault}`);
    this.fault = fault;
  }
}

export class Refused extends CcnodeError {
  /**
   * @param {import('../index.js').Refusal} refusal
   * @param {bigint} carried
   */
  constructor(refusal, carried) {
    super(`refused ${REFUSALS.indexOf(refusal) + 1} ${refusal}`);
    this.refusal = refusal;
    this.carried = carried;
  }
}
