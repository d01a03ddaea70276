// A route server's configuration, with what has changed in it, and the address plan of VLANs.
import { addressText, parsePrefix, sizeOf } from "./addresses.js";
import { difference, hunks } from "./diff.js";
import { membersByAddress, offer, parseUse, readDirectory } from "./directory.js";
import { download, element, fieldRow, fill, find, grouped, mark, say, table } from "./elements.js";
import { frame, readExport } from "./frame.js";
import { kindWords, sentence } from "./refusals.js";
import { ask, lastDone } from "./registry.js";

/** So many lines of a text are shown at a time. */
const LINES = 2000;

/** So many lines of changes are shown. */
const CHANGES = 3000;

/** So many addresses stand in a block of the plan, and so many blocks are shown. */
const BLOCK = 256n;
const BLOCKS = 64;

const HANDLE = { name: "handle", label: "Route server", list: "routers", hint: "Its handle, as rs1." };
const SEEN = { name: "seen", label: "With the edit", hint: "The number of an edit of yours that the text has to contain; may be empty." };

let exported = null;
let config = null;

/** The texts that were shown before, by handle. Those that sessionStorage hasn't room for are kept while the page is open. */
const before = new Map();

function textBefore(handle) {
  return before.get(handle) ?? sessionStorage.getItem("config " + handle);
}

function keepText(handle, text) {
  before.set(handle, text);
  try {
    sessionStorage.setItem("config " + handle, text);
  } catch {
    sessionStorage.removeItem("config " + handle);
  }
}

function inputs(form) {
  return [...form.querySelectorAll("input, select")];
}

async function askConfig(form) {
  const [handleInput, seenInput] = inputs(form);
  const [handle, seen] = [handleInput.value.trim(), seenInput.value.trim()];
  const marks = [];
  if (!/^[a-z][a-z0-9_-]{0,31}$/.test(handle)) marks.push([handleInput, "This is no handle."]);
  if (seen !== "" && !/^[1-9]\d{0,15}$/.test(seen)) marks.push([seenInput, kindWords("number")]);
  mark(form, marks);
  if (marks.length > 0) return;
  say(find("status"), "wait", "Asking ..");
  const reply = await ask("/routers/" + handle + "/config" + (seen ? "?seen=" + seen : ""));
  if (!reply.ok) {
    say(find("status"), "bad", sentence(reply));
    mark(form, [[["Y2", "body"].includes(reply.rule) ? seenInput : handleInput, sentence(reply)]]);
    return;
  }
  say(find("status"), "");
  showConfig(handle, seen, reply.text);
}

function showConfig(handle, seen, text) {
  const lines = text.split("\n");
  config = { handle, text, lines, shown: 0 };
  const facts = [["Route server", handle], ["Lines", grouped(lines.length - 1)], ["Bytes", grouped(new Blob([text]).size)],
    ["Read at", new Date().toISOString().slice(0, 19).replace("T", " ") + " UTC"], ["Contains the edit", seen || "not asked"]];
  fill(find("facts"), ...facts.map(([name, value]) => element("div", {}, element("dt", {}, name), element("dd", {}, value))));
  showChanges(textBefore(handle), text);
  keepText(handle, text);
  fill(find("text"));
  moreLines();
  fill(find("copied"));
  find("config").hidden = false;
}

function moreLines() {
  const next = config.lines.slice(config.shown, config.shown + LINES);
  find("text").append(next.join("\n") + "\n");
  config.shown += next.length;
  find("more").hidden = config.shown >= config.lines.length;
}

function showChanges(old, text) {
  const place = find("changes");
  if (old === null || old === undefined) return fill(place, element("p", {}, "No other text of this route server was shown in this tab."));
  if (old === text) return fill(place, element("p", {}, "Nothing has changed."));
  const lines = difference(old.split("\n"), text.split("\n"));
  const count = (kind) => grouped(lines.filter((line) => line[0] === kind).length);
  const changed = hunks(lines);
  const rows = changed.slice(0, CHANGES).map((line) => line === null ? element("span", { class: "gap" }, "..\n")
    : element(line[0] === "+" ? "ins" : line[0] === "-" ? "del" : "span", {}, line[0] + " " + line[1] + "\n"));
  return fill(place, element("p", { role: "status" }, "New lines: " + count("+") + ". Lines that have gone: " + count("-") + "."),
    element("pre", { class: "long", tabindex: "0", "aria-label": "Changes" }, ...rows),
    changed.length > CHANGES ? element("p", { class: "hint" }, "Further changes aren't shown.") : null);
}

async function copyConfig() {
  try {
    await navigator.clipboard.writeText(config.text);
    fill(find("copied"), "Copied.");
  } catch {
    fill(find("copied"), "The browser doesn't allow it. Download the text.");
  }
}

/** The use of a VLAN's addresses, as a grid and as a table. */
async function askPlan(form) {
  const [vlanInput, familyInput] = inputs(form);
  const vlan = exported.ixp_list[0].vlan.find((it) => String(it.id) === vlanInput.value);
  const network = vlan?.["ipv" + familyInput.value];
  fill(find("plan"));
  if (!network) return say(find("plan-status"), "bad", "The VLAN has no prefix of this family.");
  say(find("plan-status"), "wait", "Asking ..");
  const reply = await ask("/vlans/" + vlan.id + "/use/" + familyInput.value);
  if (!reply.ok) return say(find("plan-status"), "bad", sentence(reply));
  say(find("plan-status"), "");
  return showPlan(parsePrefix(network.prefix + "/" + network.mask_length), parseUse(reply.text));
}

/** Who has an address, in words. */
function userWords(members, { address, what, name }) {
  const member = members.get(address);
  return what + " " + name + (member ? ", " + member.name + ", AS" + member.asnum : "");
}

function showPlan(prefix, { taken, free }) {
  const members = membersByAddress(exported);
  const users = new Map(taken.map((it) => [it.address, { ...it, words: userWords(members, it) }]));
  const possible = sizeOf(prefix) - (prefix.family === 4 ? 2n : 1n);
  const facts = [["Prefix", addressText(prefix.family, prefix.value) + "/" + prefix.length], ["Taken", grouped(taken.length)],
    ["Free", grouped(possible - BigInt(taken.length))], ["First free address", free ?? "none"]];
  const starts = blockStarts(prefix, [...taken.map((it) => it.address), ...(free ? [free] : [])]);
  const left = (sizeOf(prefix) + BLOCK - 1n) / BLOCK - BigInt(Math.min(starts.length, BLOCKS));
  fill(find("plan"), element("dl", { class: "facts" }, ...facts.map(([name, value]) => element("div", {}, element("dt", {}, name), element("dd", {}, value)))),
    element("ul", { class: "legend" }, ...[["interface", "interface"], ["router", "route server"], ["blackhole", "blackhole address"], ["free", "free"], ["none", "not to be used"]]
      .map(([kind, text]) => element("li", { class: kind }, text))),
    ...starts.slice(0, BLOCKS).map((start) => block(prefix, start, users)),
    left > 0n ? element("p", { class: "hint" }, grouped(left) + " further blocks of 256 addresses aren't shown.") : null,
    taken.length > 0 ? table("Addresses that are taken", ["Address", "Who has it"], [...users.values()].map((it) => [element("code", {}, it.address), it.words])) : null);
}

/** Where the blocks begin that have one of these addresses. */
function blockStarts(prefix, addresses) {
  const starts = new Set();
  for (const text of addresses) {
    const { value } = parsePrefix(text + (prefix.family === 4 ? "/32" : "/128"));
    starts.add(value - ((value - prefix.value) % BLOCK));
  }
  return [...starts].sort((one, other) => (one < other ? -1 : 1));
}

/** A block of the plan. It is a picture for those who see it; the table below it has the same for others. */
function block(prefix, start, users) {
  const last = prefix.value + sizeOf(prefix) - 1n;
  const end = start + BLOCK - 1n < last ? start + BLOCK - 1n : last;
  const name = addressText(prefix.family, start) + " to " + addressText(prefix.family, end);
  const cells = [];
  for (let value = start; value <= end; value += 1n) {
    const text = addressText(prefix.family, value);
    const user = users.get(text);
    const unusable = value === prefix.value || (prefix.family === 4 && value === last);
    const kind = user ? user.what : unusable ? "none" : "free";
    cells.push(element("li", { class: kind, title: text + ": " + (user ? user.words : kind === "none" ? "not to be used" : "free") }, prefix.family === 4 ? String(value & 255n) : (value & 0xffffn).toString(16)));
  }
  const taken = cells.filter((cell) => !["free", "none"].includes(cell.className)).length;
  return element("figure", {}, element("figcaption", {}, name), element("ol", { class: "grid", role: "img", "aria-label": name + ": " + taken + " taken" }, ...cells));
}

function makeForm(form, fields, button, act) {
  fill(form, element("div", { class: "fields" }, ...fields.map(fieldRow)), element("p", { class: "buttons" }, element("button", { class: "main" }, button)));
  form.addEventListener("submit", (event) => {
    event.preventDefault();
    act(form);
  });
}

async function start() {
  makeForm(find("ask"), [HANDLE, { ...SEEN, value: lastDone() ?? "" }], "Show the configuration", askConfig);
  find("copy").addEventListener("click", copyConfig);
  find("download").addEventListener("click", () => download(config.handle + ".conf", config.text));
  find("more").addEventListener("click", moreLines);
  exported = await readExport(find("plan-status"));
  if (!exported) return;
  const vlans = exported.ixp_list[0].vlan.map((vlan) => [String(vlan.id), vlan.id + ", " + vlan.name]);
  makeForm(find("plan-form"), [{ name: "vlan", label: "VLAN", options: vlans }, { name: "family", label: "Family", options: [["4", "IPv4"], ["6", "IPv6"]] }], "Show the plan", askPlan);
  const directory = await readDirectory(exported);
  offer(directory);
  const [handleInput] = inputs(find("ask"));
  if (handleInput.value === "" && document.activeElement !== handleInput && directory.routers.size > 0) handleInput.value = [...directory.routers][0];
}

frame(start);
