// The page's side of the Worker.

export class Client {
  // `source` is the Worker's program. It is in a Blob, because a page that is opened from a folder can't load a script for a Worker.
  constructor(source, onProgress) {
    this.url = URL.createObjectURL(new Blob([source], { type: "text/javascript" }));
    this.onProgress = onProgress;
    this.waiting = new Map();
    this.count = 0;
  }

  // Starts a Worker with the module, and returns when it is ready for other calls.
  start(module) {
    this.worker = new Worker(this.url);
    this.worker.onmessage = ({ data }) => (data.progress ? this.onProgress(data.progress) : this.finish(data));
    this.worker.onerror = (event) => this.failAll(new Error(event.message || "The Worker of this page can't be started."));
    return this.call("start", { module });
  }

  // Ends the Worker, whatever it does. Calls that wait fail.
  stop() {
    this.worker.terminate();
    this.failAll(new Error("The work was stopped."));
  }

  finish({ id, answer, failure }) {
    const { resolve, reject } = this.waiting.get(id);
    this.waiting.delete(id);
    if (failure === undefined) resolve(answer);
    else reject(new Error(failure));
  }

  failAll(why) {
    for (const { reject } of this.waiting.values()) reject(why);
    this.waiting.clear();
  }

  call(call, request) {
    const id = ++this.count;
    return new Promise((resolve, reject) => {
      this.waiting.set(id, { resolve, reject });
      this.worker.postMessage({ id, call, request });
    });
  }
}
