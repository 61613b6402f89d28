// What all nodes had at one moment.
import { DeadlineExceeded } from './errors.js';

/**
 * Collects until two collects in a row show the same rows, or until one fails.
 *
 * @param {() => Promise<import('../index.js').Row[]>} collect
 * @returns {Promise<import('../index.js').Snapshot>}
 */
export async function takeSnapshot(collect) {
  let last;
  for (let collects = 1; ; collects += 1) {
    const rows = await collectBehind(collects - 1, collect);
    if (last !== undefined && areSame(rows, last)) {
      return { rows, collects };
    }
    last = rows;
  }
}

// What a collect shows, behind so many others of which no two in a row agree.
async function collectBehind(collects, collect) {
  try {
    return await collect();
  } catch (error) {
    if (error instanceof DeadlineExceeded && collects > 1) {
      throw noTwoAgree(collects, error);
    }
    throw error;
  }
}

function noTwoAgree(collects, { cause, isPending }) {
  const error = new DeadlineExceeded(cause, `no two in a row of ${collects} collects agree, since others write`);
  error.isPending = isPending;
  return error;
}

// Under one number a node never has two values.
const areSame = (rows, others) =>
  rows.length === others.length &&
  rows.every(({ node, number }, place) => node === others[place].node && number === others[place].number);
