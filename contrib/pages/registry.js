// Calls of the registry. The key, and an edit that has no reply yet, are kept in the sessionStorage of this tab, and nowhere else.
const store = window.sessionStorage;

/** How many seconds pass before each further try of an edit without a reply; then a button tries again. */
const PAUSES = [1, 2, 4, 8, 15, 30, 60];

/** How long a reply may take, in milliseconds; the web server waits 120 seconds itself. */
const PATIENCE = 130000;

/** Whose key it is: `member` is its number, or null for the staff. Null where no key was given. */
export function identity() {
  const kept = store.getItem("identity");
  return kept ? JSON.parse(kept) : null;
}

export function isStaff() {
  return identity()?.member === null;
}

export function signIn(key, member) {
  store.setItem("identity", JSON.stringify({ key, member }));
}

/** Forgets the key and everything else that this tab keeps. */
export function signOut() {
  store.clear();
}

/** A reply: `lost` where none came, else its status and text, and of a refusal `rule` and `detail`. */
function replyOf(status, text) {
  const reply = { lost: false, status, text, ok: status >= 200 && status < 300 };
  if (!reply.ok) Object.assign(reply, refusalOf(text));
  return reply;
}

function refusalOf(text) {
  try {
    const { rule, detail } = JSON.parse(text);
    return typeof rule === "string" && typeof detail === "string" ? { rule, detail } : {};
  } catch {
    return {};
  }
}

async function send(method, path, key, number, body, type) {
  const headers = {};
  if (key) headers["X-IXP-Manager-API-Key"] = key;
  if (number) headers["X-Request-Number"] = String(number);
  if (body !== undefined) headers["Content-Type"] = type;
  try {
    const reply = await fetch(path, {
      method, headers, body, cache: "no-store", credentials: "omit", redirect: "error", referrerPolicy: "no-referrer",
      signal: AbortSignal.timeout(PATIENCE),
    });
    return replyOf(reply.status, await reply.text());
  } catch {
    return { lost: true, ok: false, status: 0, text: "" };
  }
}

/** Asks a question with a key: the one that was given, or another one. */
export function ask(path, key = identity()?.key) {
  return send("GET", path, key);
}

/** Asks a question that has a body. */
export function askWith(path, body) {
  return send("POST", path, identity()?.key, undefined, JSON.stringify(body), "application/json");
}

let exported = null;

/** The member export, asked for once in a page. */
export function memberExport() {
  exported ??= send("GET", "/ixf");
  return exported;
}

/** The next number of an edit: the clock's milliseconds and three digits at random, above each number of before. */
function nextNumber() {
  const last = Number(store.getItem("last number") ?? 0);
  const number = Math.max(Date.now() * 1000 + Math.floor(Math.random() * 1000), last + 1);
  store.setItem("last number", String(number));
  return number;
}

/** The number of the last edit that was done with this key, or null. */
export function lastDone() {
  return store.getItem("last done");
}

// The edit without a reply. A body too long for sessionStorage is kept here alone.
let unsent = JSON.parse(store.getItem("unsent") ?? "null");
let trying = false;
let wake = null;
const watchers = [];

/** The edit that has no reply yet, or null. */
export function unsentEdit() {
  return unsent;
}

/** Calls a function whenever something about the unsent edit changes, with what has happened. */
export function watchEdits(watcher) {
  watchers.push(watcher);
}

function tell(event) {
  for (const watcher of watchers) watcher(event);
}

function keep(edit) {
  unsent = edit;
  try {
    store.setItem("unsent", JSON.stringify(edit));
    edit.kept = true;
  } catch {
    store.removeItem("unsent");
    edit.kept = false;
  }
}

function drop() {
  unsent = null;
  store.removeItem("unsent");
}

/** Whether a reply leaves open if the edit was made: no reply, one of a web server whose registry doesn't answer, or a fault after which it may be sent again. */
function leavesOpen(reply, number) {
  if (reply.lost || reply.status === 408 || reply.status === 429) return true;
  if (reply.ok) return reply.text !== JSON.stringify({ done: number });
  return reply.rule === "Y1" || reply.rule === "memory" || (reply.status >= 500 && reply.rule === undefined);
}

/** Waits some seconds, or until the button for another try is pressed. */
function pause(seconds) {
  return new Promise((resolve) => {
    const timer = setTimeout(resolve, seconds * 1000);
    wake = () => {
      clearTimeout(timer);
      resolve();
    };
  });
}

/** The unsent edit has its reply. */
function ended(edit, reply) {
  trying = false;
  drop();
  if (reply.ok) store.setItem("last done", String(edit.number));
  tell({ what: reply.ok ? "done" : "refused", edit, reply });
}

/** Sends the unsent edit with its number until there is a reply, or until it is given up. */
async function deliver(edit) {
  trying = true;
  for (let at = 0; ; at += 1) {
    edit.tries += 1;
    keep(edit);
    tell({ what: "sending", edit });
    const reply = await send(edit.method, edit.path, edit.key, edit.number, edit.body, edit.type);
    if (unsent !== edit) return;
    if (!leavesOpen(reply, edit.number)) {
      ended(edit, reply);
      return;
    }
    if (at >= PAUSES.length) break;
    tell({ what: "waiting", edit, reply, seconds: PAUSES[at] });
    await pause(PAUSES[at]);
    if (unsent !== edit) return;
  }
  trying = false;
  tell({ what: "stopped", edit });
}

/**
 * Begins to make an edit, and gives it back; null where another edit has no reply yet. What becomes of it is told to the watchers. `about` says in
 * words what the edit is.
 */
export function makeEdit(about, method, path, body) {
  if (unsent) return null;
  const isText = body === undefined || typeof body === "string";
  const edit = {
    number: nextNumber(), about, method, path, body: isText ? body : JSON.stringify(body), type: isText ? "text/plain" : "application/json",
    key: identity()?.key, tries: 0,
  };
  keep(edit);
  deliver(edit);
  return edit;
}

/** Sends the unsent edit now. */
export function tryAgain() {
  if (trying) wake?.();
  else if (unsent) deliver(unsent);
}

/** Gives the unsent edit up. */
export function giveUp() {
  const edit = unsent;
  drop();
  trying = false;
  wake?.();
  tell({ what: "given up", edit });
}
