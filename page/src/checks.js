// The page's side of the worker: one drawing after the other, each with a limit of time.

import { LONGEST_FILE } from "../../library/js/numbers.js";

const LONGEST_WAIT = 30000;

class Checks {
  constructor(packedModule, workerText, onVersion) {
    this.onVersion = onVersion;
    this.packedModule = packedModule;
    this.workerAddress = URL.createObjectURL(new Blob([workerText], { type: "text/javascript" }));
    this.longestWait = LONGEST_WAIT;
    this.waiting = [];
    this.running = null;
    this.count = 0;
    this.worker = null;
  }

  /** What the checker says of a file. A drawing that somebody looks at goes before those of a folder. */
  study(file, isLookedAt) {
    return this.asked({ file, isLookedAt }, isLookedAt);
  }

  /** What comes of a file that is fixed. Somebody looks at it. */
  mend(file, mends) {
    return this.asked({ file, mends }, true);
  }

  /** What comes of a file that is redrawn. Somebody looks at it. */
  redraw(file) {
    return this.asked({ file, redraws: true }, true);
  }

  asked(question, goesFirst) {
    return new Promise((resolve) => {
      const job = { ...question, resolve, number: ++this.count };
      if (goesFirst) this.waiting.unshift(job);
      else this.waiting.push(job);
      this.next();
    });
  }

  /** Ends what runs, and forgets what waits. */
  stop() {
    const waiting = this.waiting.splice(0);
    if (this.running) this.end({ answer: "ended" });
    for (const job of waiting) job.resolve(this.nothing("ended"));
  }

  nothing(answer, error = "") {
    return { answer, why: "", record: "", row: null, changes: "", bytes: null, picture: null, error };
  }

  start() {
    this.worker = new Worker(this.workerAddress);
    this.worker.onmessage = ({ data }) => this.answered(data);
    this.worker.onerror = (event) => {
      event.preventDefault();
      this.end({ answer: "stopped", error: event.message });
    };
    this.worker.postMessage({ packedModule: this.packedModule });
  }

  /** The first job for the worker, or nothing. Those whose files are too long are answered on the way. */
  taken() {
    while (this.waiting.length > 0) {
      const job = this.waiting.shift();
      if (job.file.size <= LONGEST_FILE) return job;
      job.resolve(this.nothing("too long"));
    }
    return null;
  }

  async next() {
    if (this.running) return;
    const job = this.taken();
    if (!job) return;
    this.running = job;
    const file = await job.file.arrayBuffer().catch(() => null);
    if (this.running !== job) return;
    if (!file) return this.answered({ number: job.number, ...this.nothing("unread") });
    if (!this.worker) this.start();
    this.timer = setTimeout(() => this.end({ answer: "late" }), this.longestWait);
    const { number, isLookedAt, mends, redraws } = job;
    this.worker.postMessage({ number, file, isLookedAt, mends, redraws }, [file]);
  }

  answered(result) {
    if (result.version) this.onVersion(result.version);
    if (!this.running || result.number !== this.running.number) return;
    clearTimeout(this.timer);
    const job = this.running;
    this.running = null;
    job.resolve(result);
    this.next();
  }

  /** Ends the worker; the next drawing gets a new one. */
  end({ answer, error }) {
    this.worker?.terminate();
    this.worker = null;
    if (this.running) this.answered({ number: this.running.number, ...this.nothing(answer, error) });
  }
}

export { Checks };
