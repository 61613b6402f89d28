// A client of one node of a ccnode cluster. The types and what each call does stand in index.d.ts.
export { Client, connect } from './src/client.js';
export {
  CcnodeError,
  ClientClosed,
  DeadlineExceeded,
  InvalidArgument,
  Malformed,
  Refused,
  SessionInUse,
} from './src/errors.js';
export { Watch } from './src/watch.js';
