// A browser without a window, driven over a pipe by its own protocol.

import { spawn } from 'node:child_process';
import { mkdtemp, rm } from 'node:fs/promises';
import { tmpdir } from 'node:os';
import { join } from 'node:path';

const PATIENCE = 20_000;

/** Runs `use` with a tab of a new browser: of $CHROMIUM, or chromium. */
export async function withTab(use) {
  const profile = await mkdtemp(join(tmpdir(), 'imagesize-chromium-'));
  const sandbox = process.getuid() === 0 ? ['--no-sandbox'] : [];
  const browser = spawn(process.env.CHROMIUM ?? 'chromium', [
    '--headless', ...sandbox, '--disable-gpu', '--disable-dev-shm-usage', '--no-first-run', '--no-proxy-server',
    `--user-data-dir=${profile}`, '--remote-debugging-pipe', 'about:blank',
  ], { stdio: ['ignore', 'ignore', 'ignore', 'pipe', 'pipe'] });
  const ended = new Promise((resolve) => { browser.on('exit', resolve); });
  try {
    const link = new Link(browser.stdio[3], browser.stdio[4]);
    const { targetId } = await link.send('Target.createTarget', { url: 'about:blank' });
    const { sessionId } = await link.send('Target.attachToTarget', { targetId, flatten: true });
    return await use(new Tab(link, sessionId));
  } finally {
    browser.kill('SIGKILL');
    await ended;
    await rm(profile, { recursive: true, force: true, maxRetries: 5 });
  }
}

// Commands and their results, and events. Each is a text that ends with a zero.
class Link {
  #pipe;
  #last = 0;
  #waiting = new Map();
  #rest = '';
  events = [];

  constructor(to, from) {
    this.#pipe = to;
    from.setEncoding('utf8').on('data', (text) => {
      const messages = (this.#rest + text).split('\0');
      this.#rest = messages.pop();
      for (const message of messages) this.#take(JSON.parse(message));
    });
  }

  #take(message) {
    const waiting = this.#waiting.get(message.id);
    this.#waiting.delete(message.id);
    if (waiting === undefined) this.events.push(message);
    else if (message.error) waiting.reject(new Error(message.error.message));
    else waiting.resolve(message.result);
  }

  send(method, params = {}, sessionId = undefined) {
    const id = ++this.#last;
    this.#pipe.write(`${JSON.stringify({ id, method, params, sessionId })}\0`);
    return new Promise((resolve, reject) => {
      this.#waiting.set(id, { resolve, reject });
      setTimeout(() => reject(new Error(`${method} is not answered`)), PATIENCE).unref();
    });
  }
}

/** A tab: commands to it, and what is asked of its page. */
class Tab {
  #link;
  #session;

  constructor(link, session) {
    this.#link = link;
    this.#session = session;
  }

  send(method, params) {
    return this.#link.send(method, params, this.#session);
  }

  /** The events of a name so far. */
  events(method) {
    return this.#link.events.filter((event) => event.method === method).map(({ params }) => params);
  }

  /** The value of an expression in the page. */
  async value(expression) {
    const asked = { expression, returnByValue: true, awaitPromise: true };
    const { result, exceptionDetails } = await this.send('Runtime.evaluate', asked);
    if (exceptionDetails) throw new Error(exceptionDetails.exception?.description ?? exceptionDetails.text);
    return result.value;
  }

  /** Waits until an expression is true in the page. */
  until(expression) {
    return this.settled(() => this.value(expression), expression);
  }

  /** Waits until a condition holds here. */
  async settled(condition, name = condition) {
    for (const end = Date.now() + PATIENCE; Date.now() < end;) {
      if (await condition()) return;
      await new Promise((resolve) => { setTimeout(resolve, 50); });
    }
    throw new Error(`not so in time: ${name}`);
  }
}
