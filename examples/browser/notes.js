/**
 * A list of notes that browsers share by way of a server. This page keeps the notes in IndexedDB, and compares them
 * with those of the server every five seconds, and when one is written. Without the server, notes are written all the
 * same.
 *
 * An item is the text of a note: the seconds since 1970, eight hexadecimal digits by chance, the words.
 *
 * From the top of a checkout, in two terminals:
 *
 *     python3 -m http.server 8000 --bind 127.0.0.1
 *     ./rangesync serve --text --keep notes.txt --websocket 127.0.0.1 --origin http://127.0.0.1:8000
 *
 * Then open http://127.0.0.1:8000/examples/browser/index.html in two browsers. With `?server=ADDRESS` the page compares
 * with the server at another address.
 */

import { RangeSet, Strategy, sync } from "../../js/index.js";

const SECONDS = 5;
const MOST_BYTES = 64;
const SERVER = new URLSearchParams(location.search).get("server") ?? "ws://127.0.0.1:7708/";

const [write, text, state, notes] = ["write", "text", "state", "notes"].map((id) => document.getElementById(id));
const [encoder, decoder] = [new TextEncoder(), new TextDecoder()];

/** The answer of a request to the database. */
const done = (request) =>
    new Promise((resolve, reject) => {
        request.onsuccess = () => resolve(request.result);
        request.onerror = () => reject(request.error);
    });

/** The database of this page: the items are its keys. */
async function openDatabase() {
    const request = indexedDB.open("notes", 1);
    request.onupgradeneeded = () => request.result.createObjectStore("notes");
    return done(request);
}

const database = await openDatabase();
const set = new RangeSet(Strategy.named("all-round"));

/** Keeps these items: in the database, and then in the set. */
async function keep(items) {
    const change = database.transaction("notes", "readwrite");
    for (const item of items) change.objectStore("notes").put(true, item);
    await new Promise((resolve, reject) => {
        change.oncomplete = resolve;
        // A change that fails as it is committed has no error of a request.
        change.onabort = () => reject(change.error);
    });
    set.update(items);
}

/** Shows all notes, the newest first. */
function show() {
    const rows = [...set.items()].reverse().map((item) => {
        const [seconds, , ...words] = decoder.decode(item).split(" ");
        const [row, time] = [document.createElement("li"), document.createElement("time")];
        time.textContent = new Date(1000 * Number(seconds)).toLocaleTimeString();
        row.append(time, words.join(" "));
        return row;
    });
    notes.replaceChildren(...rows);
}

/** Compares the set with the server's, and keeps what the server has more. The server keeps what this page has more. */
async function compare() {
    try {
        const signal = AbortSignal.timeout(1000 * SECONDS);
        const { theirs } = await sync(set, new WebSocket(SERVER, "rangesync"), { signal });
        await keep(theirs);
        state.textContent = `compared at ${new Date().toLocaleTimeString()}`;
    } catch (fault) {
        state.textContent = `not compared: ${fault.message}`;
    }
    show();
}

/** A new note. */
function noteOf(words) {
    const chance = crypto.getRandomValues(new Uint32Array(1))[0].toString(16).padStart(8, "0");
    return encoder.encode(`${Math.floor(Date.now() / 1000)} ${chance} ${words}`);
}

write.addEventListener("submit", async (event) => {
    event.preventDefault();
    const item = noteOf(text.value);
    if (item.length > MOST_BYTES) {
        state.textContent = `too long: ${item.length} bytes, and ${MOST_BYTES} are the most`;
        return;
    }
    text.value = "";
    await keep([item]);
    show();
    await compare();
});

const kept = await done(database.transaction("notes").objectStore("notes").getAllKeys());
set.update(kept.map((key) => new Uint8Array(key)));
show();
for (;;) {
    await compare();
    await new Promise((resolve) => setTimeout(resolve, 1000 * SECONDS));
}
