// Until when a call waits.
import { setTimeout as sleep } from 'node:timers/promises';

/** So many milliseconds from now on, or until the signal is aborted. */
export class Deadline {
  #end;
  #signal;

  constructor(milliseconds, signal) {
    this.#end = performance.now() + milliseconds;
    this.#signal = signal;
  }

  /** Milliseconds, at least 0. */
  left() {
    return this.#signal?.aborted ? 0 : Math.max(0, this.#end - performance.now());
  }

  /** This deadline, or one in so many milliseconds, whichever is over first. */
  sooner(milliseconds) {
    return new Deadline(Math.min(this.left(), milliseconds), this.#signal);
  }

  /** Why it is over: the signal's reason, where that was aborted. */
  get reason() {
    return this.#signal?.aborted ? this.#signal.reason : new Error('the deadline has passed');
  }

  /** What `start(resolve, reject)` comes to, or a rejection once the deadline is over. */
  race(start) {
    return new Promise((resolve, reject) => {
      const expire = () => {
        settle();
        reject(this.reason);
      };
      const timer = setTimeout(expire, this.left());
      const settle = () => {
        clearTimeout(timer);
        this.#signal?.removeEventListener('abort', expire);
      };
      this.#signal?.addEventListener('abort', expire, { once: true });
      start(
        (value) => {
          settle();
          resolve(value);
        },
        (error) => {
          settle();
          reject(error);
        },
      );
    });
  }

  /** Waits so many milliseconds, or until it is over. */
  async pause(milliseconds) {
    try {
      // Timers may fire a millisecond early: what is left then is no time for a further attempt.
      await sleep(Math.min(milliseconds, Math.ceil(this.left()) + 1), undefined, { signal: this.#signal });
    } catch {
      // Aborted: whoever looks at what is left finds nothing.
    }
  }
}
