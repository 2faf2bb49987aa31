// A worker that runs the program, can be stopped, and comes back.

export class Runner {
  constructor(module) {
    this.module = module;
    this.next = 1;
    this.waiting = new Map();
    this.start();
  }

  start() {
    const worker = new Worker("worker.js", { type: "module" });
    this.worker = worker;
    worker.onmessage = ({ data }) => {
      this.waiting.get(data.id)?.(data);
      this.waiting.delete(data.id);
    };
    worker.onerror = (it) => {
      it.preventDefault?.();
      if (this.worker === worker) this.stop(`the worker ended: ${it.message || "no reason given"}`);
    };
    worker.postMessage({ module: this.module });
  }

  // Asks the worker, and answers what it says: a status and a text, `trap`, `stopped` or `dropped`.
  ask(asked) {
    const id = this.next++;
    return new Promise((done) => {
      this.waiting.set(id, done);
      this.worker.postMessage({ id, ...asked });
    });
  }

  async run(words, files) {
    const said = await this.ask({ words, files });
    if (!said.text) return said;
    return { ...said, bytes: said.text, text: new TextDecoder().decode(said.text) };
  }

  // Ends what runs; whoever waits is told so.
  stop(why) {
    this.worker.terminate();
    const waiting = [...this.waiting.values()];
    this.waiting.clear();
    this.start();
    for (const done of waiting) done(why ? { trap: why } : { stopped: true });
  }
}
