// The bridge, as an editor has it: messages of the Language Server Protocol over a WebSocket of `holls page`. Where the socket is closed it is
// opened anew, and the page opens its theories in the new bridge.

const FULL = 4000; // What the server says where there is no room,
const IDLE = 4001; // and where nothing was done for long: then only what the user does opens it again.
const FIRST = 500;
const MOST = 30000; // So many milliseconds are waited before the next try, the first time and at most.

export class Bridge {
  // `heard` has a function for each notification and request of the bridge, `options` goes with `initialize`; `begun(exercises)` is called when a
  // bridge is there, with the names of the files of its course, and `ended(words)` when it is gone, with null where it was let go.
  constructor({ heard, options, begun, ended }) {
    Object.assign(this, { heard, options, begun, ended, socket: null, isBegun: false, number: 0, waiting: new Map(), wait: FIRST, timer: null });
  }

  open() {
    clearTimeout(this.timer);
    this.timer = null;
    const address = new URL('bridge', location.href);
    address.protocol = address.protocol === 'https:' ? 'wss:' : 'ws:';
    const socket = new WebSocket(address.href.split('?')[0]);
    this.socket = socket;
    socket.onopen = () => this.begin();
    socket.onmessage = ({ data }) => this.hear(JSON.parse(data));
    socket.onclose = ({ code, reason }) => this.socket === socket && this.closed(code, reason);
  }

  async begin() {
    const capabilities = { window: { workDoneProgress: true }, workspace: { codeLens: { refreshSupport: true } } };
    const done = await this.request('initialize', { processId: null, rootUri: null, capabilities, initializationOptions: this.options });
    if (!done) return;
    this.notify('initialized', {});
    Object.assign(this, { isBegun: true, wait: FIRST });
    this.begun(done.capabilities?.experimental?.exercises ?? []);
  }

  closed(code, reason) {
    Object.assign(this, { socket: null, isBegun: false });
    for (const [, answer] of this.waiting) answer(null);
    this.waiting.clear();
    const isIdle = code === IDLE;
    this.ended(isIdle ? null : reason || "the server `holls page` doesn't answer");
    if (isIdle) return;
    this.timer = setTimeout(() => this.open(), this.wait * (0.5 + Math.random()));
    this.wait = Math.min(MOST, this.wait * (code === FULL ? 4 : 2));
  }

  // The user does something: a bridge that was let go is wanted again.
  wake() {
    if (!this.socket && !this.timer) this.open();
  }

  send(message) {
    if (this.socket?.readyState === WebSocket.OPEN) this.socket.send(JSON.stringify({ jsonrpc: '2.0', ...message }));
  }

  notify(method, params) {
    this.send({ method, params });
  }

  // Asks something: a promise of the result, or of null where it is refused or the bridge is gone; `told` takes the words of a refusal. The
  // promise has the request's number.
  request(method, params, told = () => {}) {
    this.number += 1;
    const { number } = this;
    const answered = new Promise((answer) => {
      if (this.socket?.readyState !== WebSocket.OPEN) answer(null);
      else this.waiting.set(number, (message) => {
        if (message?.error) told(message.error.message);
        answer(message?.result ?? null);
      });
    });
    this.send({ id: number, method, params });
    return Object.assign(answered, { number });
  }

  cancel(number) {
    if (this.waiting.has(number)) this.notify('$/cancelRequest', { id: number });
  }

  hear(message) {
    if (message.method === undefined) {
      const answer = this.waiting.get(message.id);
      this.waiting.delete(message.id);
      answer?.(message);
      return;
    }
    this.heard[message.method]?.(message.params);
    if (message.id !== undefined) this.send({ id: message.id, result: null });
  }
}
