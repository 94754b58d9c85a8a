// A browser that is driven by its DevTools protocol over a pipe: messages in JSON, each ended by a zero byte.
import { spawn } from 'node:child_process';
import { mkdtempSync, rmSync } from 'node:fs';
import { tmpdir } from 'node:os';
import { join } from 'node:path';
import { Tab } from './tab.mjs';

const FLAGS = [
    '--headless=new',
    '--no-sandbox',
    '--disable-gpu',
    '--disable-dev-shm-usage',
    '--hide-scrollbars',
    '--no-first-run',
    '--force-color-profile=srgb',
    '--remote-debugging-pipe',
];

const LONGEST_ANSWER = 10000;

export class Browser {
    #waiting = new Map();
    #listeners = new Map();
    #last = 0;
    #rest = '';
    #ended;

    constructor(program) {
        this.room = mkdtempSync(join(tmpdir(), 'page-test-'));
        const stdio = ['ignore', 'ignore', 'ignore', 'pipe', 'pipe'];
        this.process = spawn(program, [...FLAGS, `--user-data-dir=${this.room}`, 'about:blank'], { stdio });
        this.process.on('exit', () => this.#fail('the browser has ended'));
        this.process.on('error', (error) => this.#fail(error.message));
        [, , , this.in, this.out] = this.process.stdio;
        this.in.on('error', () => {});
        this.out.setEncoding('utf8').on('data', (text) => this.#take(text));
    }

    #fail(why) {
        this.#ended = why;
        for (const { reject } of this.#waiting.values()) reject(new Error(why));
        this.#waiting.clear();
    }

    #take(text) {
        const messages = (this.#rest + text).split('\0');
        this.#rest = messages.pop();
        for (const message of messages) this.#answer(JSON.parse(message));
    }

    #answer({ id, result, error, method, params, sessionId }) {
        if (id === undefined) {
            this.#listeners.get(sessionId)?.(method, params);
            return;
        }
        const { resolve, reject } = this.#waiting.get(id) ?? {};
        this.#waiting.delete(id);
        if (error) reject?.(new Error(error.message));
        else resolve?.(result);
    }

    // A message that gets no answer in time fails, so that a test never hangs.
    send(method, params = {}, sessionId = undefined) {
        this.#last += 1;
        const id = this.#last;
        if (this.#ended) return Promise.reject(new Error(this.#ended));
        return new Promise((resolve, reject) => {
            const late = setTimeout(() => reject(new Error(`${method} is not answered`)), LONGEST_ANSWER);
            const settle = (how) => (answer) => {
                clearTimeout(late);
                how(answer);
            };
            this.#waiting.set(id, { resolve: settle(resolve), reject: settle(reject) });
            this.in.write(`${JSON.stringify({ id, method, params, sessionId })}\0`);
        });
    }

    // A new tab of a size, with touch or not, in a colour scheme.
    async tab(look) {
        const { targetId } = await this.send('Target.createTarget', { url: 'about:blank' });
        const { sessionId } = await this.send('Target.attachToTarget', { targetId, flatten: true });
        const tab = new Tab((method, params) => this.send(method, params, sessionId));
        this.#listeners.set(sessionId, (method, params) => tab.hear(method, params));
        await tab.prepare(look);
        return tab;
    }

    async close() {
        const ended = new Promise((resolve) => this.process.once('exit', resolve));
        await this.send('Browser.close').catch(() => {});
        await Promise.race([ended, new Promise((resolve) => setTimeout(resolve, 5000))]);
        if (this.process.exitCode === null) this.process.kill('SIGKILL');
        rmSync(this.room, { recursive: true, force: true, maxRetries: 5 });
    }
}
