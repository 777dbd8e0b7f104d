// Who does the tasks: a worker that runs the page's own script, so that the page can be used meanwhile; where none can
// be had, the page itself.
import { loadEngine } from '../engine.mjs';
import { tasksWith } from './tasks.mjs';

const PAUSE = 100; // milliseconds between two words of progress

/** The worker's side: it is given the engine first, and then tasks, one after another. */
export function serve(scope) {
    let tasks = { begin: async (engine) => void (tasks = tasksWith(await loadEngine(engine))) };
    scope.onmessage = async ({ data: { number, task, values } }) => {
        const progress = seldom((told) => scope.postMessage({ number, told }));
        try {
            scope.postMessage({ number, value: await tasks[task](values, progress) });
        } catch (error) {
            scope.postMessage({ number, failure: error.message });
        }
    };
}

/** Passes on how far the work is, but not more often than anyone can see. */
function seldom(tell) {
    let last = 0;
    return (done, all) => {
        if (Date.now() - last < PAUSE) return;
        last = Date.now();
        tell({ done, all });
    };
}

/** `ask(task, values, tell)` has a task done; while it goes on, `tell` is given {done, all}. `where` says by whom. */
export async function clerkWith(script, engine) {
    try {
        return await inWorker(script, engine);
    } catch {
        return onPage(engine);
    }
}

async function inWorker(script, engine) {
    const worker = new Worker(URL.createObjectURL(new Blob([script], { type: 'text/javascript' })));
    const waiting = new Map();
    let number = 0;
    worker.onmessage = ({ data }) => answered(waiting, data);
    worker.onerror = ({ message }) => {
        for (const asked of waiting.keys()) answered(waiting, { number: asked, failure: message ?? 'worker' });
    };
    const ask = (task, values, tell) =>
        new Promise((done, fail) => {
            number += 1;
            waiting.set(number, { done, fail, tell });
            worker.postMessage({ number, task, values });
        });
    await ask('begin', engine);
    return { ask, where: 'worker' };
}

function answered(waiting, { number, value, told, failure }) {
    const { done, fail, tell } = waiting.get(number);
    if (told !== undefined) return tell?.(told);
    waiting.delete(number);
    return failure === undefined ? done(value) : fail(new Error(failure));
}

async function onPage(engine) {
    const tasks = tasksWith(await loadEngine(engine));
    const ask = async (task, values) => {
        await new Promise((done) => setTimeout(done, 30)); // so that it is seen that something is done
        return tasks[task](values);
    };
    return { ask, where: 'page' };
}
