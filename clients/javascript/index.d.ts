/** Why a node refuses a request (docs/FORMATS.md, "Refusals"). */
export type Refusal =
  | 'Left'
  | 'NotEntered'
  | 'AlreadyEntered'
  | 'NotJoined'
  | 'Old'
  | 'Gap'
  | 'NothingToAck'
  | 'TooManyNodes'
  | 'TooManySessions'
  | 'Repeat'
  | 'Stale'
  | 'Skip'
  | 'Busy'
  | 'SetFull'
  | 'OutboxFull'
  | 'Spent'
  | 'NoMemory'
  | 'QueueFull';

/** What is wrong with bytes that spell no frame of a node (docs/FORMATS.md, "What a decoder refuses"). */
export type Fault = 'Short' | 'TooLarge' | 'BadKind' | 'NotAscending' | 'Trailing';

/** Whatever this module rejects with. */
export class CcnodeError extends Error {}

/** An argument is outside its limits. Nothing was sent. */
export class InvalidArgument extends CcnodeError {}

/** The client was closed. */
export class ClientClosed extends CcnodeError {}

/** Another client asks in this session, or the addresses lead to different nodes. What was asked may have been done. */
export class SessionInUse extends CcnodeError {}

/**
 * No answer came in time, the signal was aborted, or no two collects in a row of a snapshot agreed. `cause` is why the last
 * attempt failed.
 */
export class DeadlineExceeded extends CcnodeError {
  /**
   * Where this is true, what was asked may have been done, and the client's next call first asks it again until it is. Else
   * it was never sent.
   */
  readonly isPending: boolean;
}

/** The other end sent bytes that spell no frame of a node. What was asked may still be done, as after a deadline. */
export class Malformed extends CcnodeError {
  readonly fault: Fault;
}

/** The node refused the request for good: it wasn't done, and won't be. */
export class Refused extends CcnodeError {
  readonly refusal: Refusal;
  /** The number that the refusal carries, else 0. */
  readonly carried: bigint;
}

/** What a node has stored. */
export interface Row {
  readonly node: number;
  /** The number of the node's last write. */
  readonly number: bigint;
  readonly text: Uint8Array;
  readonly max: bigint;
  readonly flag: boolean;
  /** Ascending. */
  readonly set: readonly number[];
}

/** What all nodes had at one moment. */
export interface Snapshot {
  /** As `collect` gives them. */
  readonly rows: Row[];
  /** How many collects it took, 2 at least. */
  readonly collects: number;
}

/** A node's row appeared, where `old` is undefined, or changed. Rows never go away. */
export interface Change {
  readonly node: number;
  readonly old: Row | undefined;
  readonly new: Row;
}

export interface CallOptions {
  /** After how many milliseconds the call rejects with DeadlineExceeded: 10,000, or as many as `connect` was given. */
  timeout?: number;
  /** An abort is as a deadline that has passed. */
  signal?: AbortSignal;
}

/**
 * The changes of a cluster's rows, without end; the first collect makes each row appear. Where a collect fails its error is
 * thrown, and the watch stands as it was: whoever iterates on has missed no change but those that were followed by another
 * one of the same node between two collects.
 */
export class Watch implements AsyncIterableIterator<Change> {
  private constructor();
  [Symbol.asyncIterator](): this;
  next(): Promise<IteratorResult<Change, never>>;
}

/**
 * A client of one node, which `connect` makes. Its calls take turns. Each rejects with DeadlineExceeded after its timeout,
 * Refused where the node refuses for good, InvalidArgument before anything is sent, ClientClosed, SessionInUse or Malformed.
 */
export class Client {
  private constructor();

  /** Stores a text of at most 64 bytes as this node's; a string is taken as UTF-8. */
  store(text: string | Uint8Array, options?: CallOptions): Promise<void>;

  /** The last row of each node that ever wrote, by ascending node. */
  collect(options?: CallOptions): Promise<Row[]>;

  /**
   * What all nodes had at one moment: it collects until two collects in a row agree. Where others write all the time no two
   * may agree until the deadline. A longer one gives it more tries.
   */
  snapshot(options?: CallOptions): Promise<Snapshot>;

  /** Raises this node's maximum to `number`, at most 2^64 - 1; a smaller one leaves it as it is. */
  max(number: number | bigint, options?: CallOptions): Promise<void>;

  /** The greatest maximum of all nodes, 0 where none was written. */
  readMax(options?: CallOptions): Promise<bigint>;

  /** Sets this node's flag, for good. */
  flag(options?: CallOptions): Promise<void>;

  /** Whether any node has set its flag. */
  readFlag(options?: CallOptions): Promise<boolean>;

  /** Adds a number, at most 2^32 - 1, to this node's set. Refused with SetFull where that has 32 others. */
  add(number: number | bigint, options?: CallOptions): Promise<void>;

  /** The numbers that were added at any node, ascending. */
  readSet(options?: CallOptions): Promise<number[]>;

  /** Collects each `interval` milliseconds, and iterates over the rows that appeared or changed. */
  watch(interval: number, options?: CallOptions): Watch;

  /** Ends the client. Calls that are under way reject with ClientClosed; they may still be done. */
  close(): void;
}

/**
 * A client in a session of the node that listens at these addresses, "HOST:PORT" each; several lead to one node. It resolves
 * once no request of an earlier client of the session is under way any more. `timeout` is also that of each call that names
 * none. It rejects with InvalidArgument, DeadlineExceeded, Refused, SessionInUse or Malformed.
 */
export function connect(
  addresses: string | readonly string[],
  session: number | bigint,
  options?: CallOptions,
): Promise<Client>;
