// A tab of the browser: what one does in it by keys, mouse and finger, and what is shown there.
const KEYS = { Tab: 9, Enter: 13, Space: 32, Home: 36, End: 35, ArrowDown: 40, Backspace: 8 };

const late = (address) => new Promise((_, reject) => setTimeout(() => reject(new Error(`${address} is not loaded`)), 10000).unref());

const thrown = ({ exception, text }) => exception?.description ?? text;

export class Tab {
    #send;
    #loaded = () => {};

    // Faults that the page threw or logged, and the addresses that it asked for.
    faults = [];
    asked = [];

    constructor(send) {
        this.#send = send;
    }

    hear(method, params) {
        if (method === 'Page.loadEventFired') this.#loaded();
        if (method === 'Runtime.exceptionThrown') this.faults.push(thrown(params.exceptionDetails));
        if (method === 'Runtime.consoleAPICalled' && params.type === 'error') this.faults.push(JSON.stringify(params.args));
        if (method === 'Log.entryAdded' && params.entry.level === 'error') this.faults.push(params.entry.text);
        if (method === 'Network.requestWillBeSent') this.asked.push(params.request.url);
    }

    async prepare({ width, height, touch, dark }) {
        for (const domain of ['Page', 'Runtime', 'Network', 'Log', 'DOM']) await this.#send(`${domain}.enable`);
        await this.#send('Emulation.setDeviceMetricsOverride', { width, height, deviceScaleFactor: 1, mobile: touch });
        await this.#send('Emulation.setTouchEmulationEnabled', { enabled: touch });
        await this.#send('Emulation.setFocusEmulationEnabled', { enabled: true });
        const features = [{ name: 'prefers-color-scheme', value: dark ? 'dark' : 'light' }];
        await this.#send('Emulation.setEmulatedMedia', { features });
        this.touch = touch;
    }

    // Leaves the page, so that the next one is opened and not only its link.
    async leave() {
        await this.#go('about:blank');
    }

    forget() {
        [this.faults, this.asked] = [[], []];
    }

    // Opens an address and waits until the page has shown its state.
    async open(address) {
        await this.#go(address);
        await this.until(`document.getElementById('verdict').dataset.kind !== undefined`);
    }

    async #go(address) {
        const loaded = new Promise((resolve) => (this.#loaded = resolve));
        const { errorText } = await this.#send('Page.navigate', { url: address });
        if (errorText) throw new Error(`${address}: ${errorText}`);
        await Promise.race([loaded, late(address)]);
    }

    async value(expression) {
        const { result, exceptionDetails } = await this.#send('Runtime.evaluate', { expression, returnByValue: true, awaitPromise: true });
        if (exceptionDetails) throw new Error(`${expression}: ${thrown(exceptionDetails)}`);
        return result.value;
    }

    async until(expression, milliseconds = 5000) {
        const end = Date.now() + milliseconds;
        while (Date.now() < end) {
            if (await this.value(expression)) return;
            if (this.faults.length > 0) throw new Error(`the page says ${this.faults[0]}`);
            await new Promise((resolve) => setTimeout(resolve, 10));
        }
        throw new Error(`it never came that ${expression}`);
    }

    // The text of the first element that a selector finds, with spaces as they are shown in a sentence.
    text(selector) {
        return this.value(`(document.querySelector(${JSON.stringify(selector)})?.textContent ?? '').replace(/\\s+/g, ' ').trim()`);
    }

    texts(selector) {
        return this.value(`[...document.querySelectorAll(${JSON.stringify(selector)})].map((element) => element.textContent)`);
    }

    // The middle of an element, which is brought into sight.
    async middle(selector) {
        const place = await this.value(`(() => {
            const element = document.querySelector(${JSON.stringify(selector)});
            if (!element) return null;
            element.scrollIntoView({ block: 'center', behavior: 'instant' });
            const { x, y, width, height } = element.getBoundingClientRect();
            return { x: x + width / 2, y: y + height / 2 };
        })()`);
        if (!place) throw new Error(`there is no ${selector}`);
        return place;
    }

    async point(selector) {
        await this.#send('Input.dispatchMouseEvent', { type: 'mouseMoved', ...(await this.middle(selector)) });
    }

    // A click, or a tap where the tab has touch.
    async click(selector) {
        const place = await this.middle(selector);
        if (this.touch) {
            await this.#send('Input.dispatchTouchEvent', { type: 'touchStart', touchPoints: [place] });
            await this.#send('Input.dispatchTouchEvent', { type: 'touchEnd', touchPoints: [] });
        } else {
            for (const type of ['mousePressed', 'mouseReleased']) {
                await this.#send('Input.dispatchMouseEvent', { type, ...place, button: 'left', clickCount: 1 });
            }
        }
        // A tap becomes a click a moment later.
        await this.value('new Promise((resolve) => setTimeout(resolve, 20))');
    }

    async key(key, modifiers = 0) {
        const code = KEYS[key] ?? key.toUpperCase().charCodeAt(0);
        const event = { key: key === 'Space' ? ' ' : key, code: KEYS[key] ? key : undefined, windowsVirtualKeyCode: code, modifiers };
        const text = { Enter: '\r', Space: ' ' }[key];
        await this.#send('Input.dispatchKeyEvent', { type: text ? 'keyDown' : 'rawKeyDown', text, ...event });
        await this.#send('Input.dispatchKeyEvent', { type: 'keyUp', ...event });
    }

    // Types key by key; what no key has is put in as an input method does.
    async type(text) {
        for (const character of text) {
            if (/^[ -~]$/.test(character)) {
                await this.#send('Input.dispatchKeyEvent', { type: 'keyDown', key: character, text: character });
                await this.#send('Input.dispatchKeyEvent', { type: 'keyUp', key: character });
            } else {
                await this.insert(character);
            }
        }
    }

    // Puts text in at once, as an input method does.
    async insert(text) {
        await this.#send('Input.insertText', { text });
    }

    async #command(name) {
        await this.#send('Input.dispatchKeyEvent', { type: 'rawKeyDown', commands: [name] });
        await this.#send('Input.dispatchKeyEvent', { type: 'keyUp' });
    }

    // Selects all of a field, so that what comes next takes its place.
    async select(selector) {
        await this.value(`(() => { const field = document.querySelector(${JSON.stringify(selector)}); field.focus(); field.select(); })()`);
    }

    async retype(selector, text) {
        await this.select(selector);
        await this.key('Backspace');
        await this.type(text);
    }

    // Copies a text from a field that is there for that alone, and pastes it in the place of what is in another.
    async repaste(selector, text) {
        const copied = `{ id: 'copied', value: ${JSON.stringify(text)} }`;
        await this.value(`document.body.append(Object.assign(document.createElement('textarea'), ${copied}))`);
        await this.select('#copied');
        await this.#command('copy');
        await this.value(`document.getElementById('copied').remove()`);
        await this.select(selector);
        await this.#command('paste');
    }

    // Sets a field that has a picker of its own.
    async pick(selector, text) {
        await this.value(`(() => {
            const field = document.querySelector(${JSON.stringify(selector)});
            field.value = ${JSON.stringify(text)};
            for (const name of ['input', 'change']) field.dispatchEvent(new Event(name, { bubbles: true }));
        })()`);
    }

    async chooseFile(selector, file) {
        const { root } = await this.#send('DOM.getDocument');
        const { nodeId } = await this.#send('DOM.querySelector', { nodeId: root.nodeId, selector });
        await this.#send('DOM.setFileInputFiles', { nodeId, files: [file] });
    }

    async picture(clip) {
        const { data } = await this.#send('Page.captureScreenshot', { format: 'png', clip: clip && { ...clip, scale: 1 } });
        return Buffer.from(data, 'base64');
    }
}
