'use strict';
// The bridge as a process: messages of the Language Server Protocol to it and from it. Nothing here knows VS Code.

const { spawn } = require('child_process');

class Bridge {
  // `command` starts it. `heard(method, params)` gets its notifications and requests, which are answered by null; `ended(reason)` its end.
  constructor(command, heard, ended) {
    this.heard = heard;
    this.number = 0;
    this.waiting = new Map();
    this.input = Buffer.alloc(0);
    this.isOver = false;
    this.process = spawn(command[0], command.slice(1), { stdio: ['pipe', 'pipe', 'pipe'] });
    this.complaint = '';
    this.process.stdin.on('error', () => {});
    this.process.stderr.on('data', (data) => { this.complaint = String(data).trim().split('\n').pop(); });
    this.process.stdout.on('data', (data) => this.take(data));
    this.process.on('error', (error) => this.end(error.message, ended));
    this.process.on('close', (status) => this.end(`it ended with status ${status}. ${this.complaint}`, ended));
  }

  end(reason, ended) {
    if (this.isOver) return;
    this.isOver = true;
    for (const { refuse } of this.waiting.values()) refuse(new Error(reason));
    this.waiting.clear();
    ended(reason);
  }

  write(message) {
    if (this.isOver) return;
    const body = Buffer.from(JSON.stringify({ jsonrpc: '2.0', ...message }));
    this.process.stdin.write(`Content-Length: ${body.length}\r\n\r\n`);
    this.process.stdin.write(body);
  }

  notify(method, params) {
    this.write({ method, params });
  }

  request(method, params) {
    const id = ++this.number;
    return new Promise((answer, refuse) => {
      if (this.isOver) {
        refuse(new Error('the bridge has ended'));
        return;
      }
      this.waiting.set(id, { answer, refuse });
      this.write({ id, method, params });
    });
  }

  take(data) {
    this.input = Buffer.concat([this.input, data]);
    for (;;) {
      const head = this.input.indexOf('\r\n\r\n');
      if (head < 0) return;
      const length = Number(/Content-Length: *(\d+)/i.exec(this.input.toString('ascii', 0, head))[1]);
      if (this.input.length < head + 4 + length) return;
      const message = JSON.parse(this.input.toString('utf8', head + 4, head + 4 + length));
      this.input = this.input.subarray(head + 4 + length);
      this.message(message);
    }
  }

  message(message) {
    if (message.method) {
      this.heard(message.method, message.params);
      if (message.id !== undefined) this.write({ id: message.id, result: null });
    } else {
      const waiting = this.waiting.get(message.id);
      this.waiting.delete(message.id);
      if (waiting && message.error) waiting.refuse(new Error(message.error.message));
      else if (waiting) waiting.answer(message.result);
    }
  }

  stop() {
    this.request('shutdown', {}).catch(() => {});
    this.notify('exit', {});
  }
}

module.exports = { Bridge };
