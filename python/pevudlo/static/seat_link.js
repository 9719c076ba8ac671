// The socket of a seat: what is asked, and what is told.

/** @typedef {{n: number, by: number, op: string, id: number, text?: string, after?: number}} Operation */
/** @typedef {{name: string, n: number, lines: [number, string, number][]}} Text */
/** @typedef {Record<string, any>} Answer */

/**
 * What a page does with what it is told.
 * @typedef {object} Hears
 * @property {(text: Text) => void} entered
 * @property {(operation: Operation) => void} done
 * @property {(name: string, told: any) => void} state
 * @property {(hello: Answer) => void} hello
 * @property {(words: string) => void} bye
 * @property {() => void} lost
 */

const AGAIN = [500, 1000, 2000, 5000];

/** A link of a seat to its server. It is made anew where it breaks. */
export class SeatLink {
  /** @param {Hears} hears */
  constructor(hears) {
    this.hears = hears;
    /** @type {Map<number, (answer: Answer) => void>} */
    this.asked = new Map();
    this.mark = 0;
    this.tries = 0;
    this.isOver = false;
    /** @type {WebSocket|null} */
    this.socket = null;
    /** @type {Answer} */
    this.first = {};
  }

  /**
   * Comes by a first message.
   * @param {Answer} first
   */
  start(first) {
    this.first = first;
    this.isOver = false;
    const address = new URL("seat", location.href);
    address.protocol = location.protocol === "https:" ? "wss:" : "ws:";
    address.hash = "";
    const socket = this.socket = new WebSocket(address);
    socket.addEventListener("open", () => socket.send(JSON.stringify(first)));
    socket.addEventListener("message", event => this.take(JSON.parse(event.data)));
    socket.addEventListener("close", event => this.closed(socket, event.code));
  }

  /** @param {WebSocket} socket @param {number} code */
  closed(socket, code) {
    if (socket !== this.socket) return;
    this.socket = null;
    const nobody = { refused: "Nobody answers: it isn't known whether this was done." };
    this.asked.forEach(answered => answered(nobody));
    this.asked.clear();
    if (code === 1009) this.hears.bye("the message was too long");
    if (this.isOver || code === 1009) return;
    this.hears.lost();
    setTimeout(() => { if (!this.socket) this.start(this.first); }, AGAIN[Math.min(this.tries++, AGAIN.length - 1)]);
  }

  /** @param {Answer} told */
  take(told) {
    if (told.bye) {
      this.isOver = true;
      this.hears.bye(told.bye);
      return;
    }
    this.tries = 0;
    for (const answer of told.answers ?? []) this.answered(answer);
    if (told.text) this.hears.entered(told.text);
    for (const operation of told.ops ?? []) this.hears.done(operation);
    if (told.lost) this.ask("text");
    for (const [name, state] of Object.entries(told.states ?? {})) this.hears.state(name, state);
  }

  /** @param {Answer} answer */
  answered(answer) {
    if (answer.hello) {
      this.hears.hello(answer.hello);
      return;
    }
    this.asked.get(answer.mark)?.(answer);
    this.asked.delete(answer.mark);
  }

  /**
   * Asks for something to be done. `heard` has the answer before what happened behind it is heard.
   * @param {string} word
   * @param {Answer} [more]
   * @param {(answer: Answer) => void} [heard]
   * @returns {Promise<Answer>}
   */
  ask(word, more = {}, heard = () => {}) {
    return new Promise(resolve => {
      const answered = (/** @type {Answer} */ answer) => { heard(answer); resolve(answer); };
      const socket = this.socket;
      if (!socket || socket.readyState !== WebSocket.OPEN) {
        answered({ refused: "Nobody answers." });
        return;
      }
      this.asked.set(++this.mark, answered);
      socket.send(JSON.stringify({ do: word, mark: this.mark, ...more }));
    });
  }

  /**
   * Tells something that has no answer.
   * @param {string} word @param {Answer} more
   */
  tell(word, more) {
    if (this.socket?.readyState === WebSocket.OPEN) this.socket.send(JSON.stringify({ do: word, ...more }));
  }
}
