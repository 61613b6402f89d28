// What changed between one collect and the next.
import { setTimeout as sleep } from 'node:timers/promises';

export class Watch {
  #collect;
  #interval;
  #due = performance.now();
  #rows = new Map();
  #changes = [];

  /**
   * @param {() => Promise<import('../index.js').Row[]>} collect
   * @param {number} interval milliseconds
   */
  constructor(collect, interval) {
    this.#collect = collect;
    this.#interval = interval;
  }

  [Symbol.asyncIterator]() {
    return this;
  }

  async next() {
    while (this.#changes.length === 0) {
      await sleep(Math.max(0, this.#due - performance.now()));
      this.#due = performance.now() + this.#interval;
      this.#compare(await this.#collect());
    }
    return { done: false, value: this.#changes.shift() };
  }

  #compare(rows) {
    for (const row of rows) {
      const old = this.#rows.get(row.node);
      // Under one number a node never has two values.
      if (old?.number !== row.number) {
        this.#changes.push({ node: row.node, old, new: row });
        this.#rows.set(row.node, row);
      }
    }
  }
}
