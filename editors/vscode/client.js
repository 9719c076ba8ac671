"use strict";
// A client of a language server over the standard input and output of a child: frames, requests and notices.

const { spawn } = require("child_process");

const END = "\r\n\r\n";

class Client {
  // `hear` is given each notice, and each request, of the server: its method and its parameters. `gone` is told why it ended.
  constructor(command, hear, gone) {
    this.hear = hear;
    this.waiting = new Map();
    this.asked = 0;
    this.rest = Buffer.alloc(0);
    this.said = "";
    this.child = spawn(command[0], command.slice(1), { stdio: ["pipe", "pipe", "pipe"] });
    this.child.stdout.on("data", (data) => this.take(data));
    this.child.stderr.on("data", (data) => (this.said = (this.said + data).slice(-2000)));
    this.child.stdin.on("error", () => {});
    this.child.on("error", (error) => this.end(error.message, gone));
    this.child.on("exit", (status, signal) => this.end(`exit status ${status ?? signal}`, gone));
  }

  end(why, gone) {
    for (const { reject } of this.waiting.values()) reject(new Error(why));
    this.waiting.clear();
    if (!this.isOver) gone(this.said.trim() || why);
    this.isOver = true;
  }

  take(data) {
    this.rest = Buffer.concat([this.rest, data]);
    for (;;) {
      const end = this.rest.indexOf(END);
      if (end < 0) return;
      const length = Number(/content-length: *(\d+)/i.exec(this.rest.subarray(0, end).toString())[1]);
      const start = end + END.length;
      if (this.rest.length < start + length) return;
      const message = JSON.parse(this.rest.subarray(start, start + length).toString());
      this.rest = this.rest.subarray(start + length);
      this.handle(message);
    }
  }

  handle(message) {
    if (message.method !== undefined) {
      if (message.id !== undefined) this.send({ id: message.id, result: null });
      this.hear(message.method, message.params);
      return;
    }
    const waiting = this.waiting.get(message.id);
    this.waiting.delete(message.id);
    if (waiting && message.error) waiting.reject(new Error(message.error.message));
    else if (waiting) waiting.resolve(message.result);
  }

  send(message) {
    if (this.isOver) return;
    const body = Buffer.from(JSON.stringify({ jsonrpc: "2.0", ...message }));
    this.child.stdin.write(`Content-Length: ${body.length}${END}`);
    this.child.stdin.write(body);
  }

  tell(method, params) {
    this.send({ method, params });
  }

  // `token` is a wish that the request be cancelled, as VS Code has it.
  ask(method, params, token) {
    if (this.isOver) return Promise.reject(new Error("the server has ended"));
    const id = ++this.asked;
    this.send({ id, method, params });
    if (token) token.onCancellationRequested(() => this.tell("$/cancelRequest", { id }));
    return new Promise((resolve, reject) => this.waiting.set(id, { resolve, reject }));
  }

  async close() {
    if (this.isOver) return;
    try {
      await this.ask("shutdown");
    } catch {
      // It has ended by itself.
    }
    this.tell("exit");
    this.isOver = true;
    this.child.stdin.end();
  }
}

module.exports = { Client };
