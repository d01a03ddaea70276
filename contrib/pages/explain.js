// Asks what becomes of a route, and tells it in words (docs/POLICY.md).
import { element, fieldRow, fill, find, mark, say, table } from "./elements.js";
import { interfaceWords, offer, readDirectory } from "./directory.js";
import { frame, readExport } from "./frame.js";
import { capital, fieldWords, kindWords, sentence } from "./refusals.js";
import { askWith, isStaff, lastDone } from "./registry.js";
import { numberOf } from "./rules.js";
import { words } from "./words.js";

/** So many peers are in a request; further ones are asked about in another. */
const PEERS = 64;

const ROUTER = { name: "handle", label: "Route server", kind: "handle", path: true, list: "routers", hint: "Its handle, as rs1." };
const INTERFACE = { name: "interface", label: "Interface", kind: "number", path: true, list: "interfaces", hint: "The number of the interface whose session brings the route." };
const ROUTE = [
  { name: "net", label: "Prefix", kind: "prefix" },
  { name: "path", label: "AS path", kind: "number", list_of: true, hint: "AS numbers with blanks between them, the member's own first." },
  { name: "nexthop", label: "Next hop", kind: "address", hint: "Most often the address of the session." },
  { name: "pairs", label: "Communities", kind: "text", list_of: true, hint: "Such as 65535:666, with blanks between them; may be empty." },
  { name: "triples", label: "Large communities", kind: "text", list_of: true, hint: "Such as 65500:0:65001; may be empty." },
];
const PEERS_FIELD = { name: "peers", label: "Peers to ask about", kind: "number", list_of: true, hint: "AS numbers with blanks between them." };
const SEEN = { name: "seen", label: "With the edit", kind: "number", hint: "The number of an edit of yours that the answer has to contain; may be empty." };

let exported = null;
let directory = { interfaces: new Map(), routers: new Set() };

class RouteForm {
  constructor(fields) {
    this.fields = fields;
    this.inputs = new Map();
    this.element = find("route");
    this.status = element("div", { class: "message", role: "status", hidden: true });
    const rows = fields.map((field) => {
      const row = fieldRow(field);
      this.inputs.set(field.name, row.querySelector("input"));
      return row;
    });
    if (this.inputs.has("peers")) rows.at(-1).append(element("button", { type: "button", class: "small", onclick: () => this.allPeers() }, "All members"));
    fill(this.element, element("div", { class: "fields" }, ...rows), element("p", { class: "buttons" }, element("button", { class: "main" }, "Explain")), this.status);
    this.element.onsubmit = (event) => {
      event.preventDefault();
      this.submit();
    };
  }

  allPeers() {
    const numbers = (exported?.member_list ?? []).map((member) => member.asnum);
    this.inputs.get("peers").value = numbers.join(" ");
  }

  items(name) {
    return this.inputs.get(name)?.value.trim().split(/[\s,]+/).filter((it) => it !== "") ?? [];
  }

  /** The values of the fields, and marks at those that can't be sent. */
  read() {
    const values = {};
    const marks = [];
    for (const field of this.fields) {
      const value = this.valueOf(field);
      if (value === undefined) marks.push([this.inputs.get(field.name), kindWords(field.kind)]);
      values[field.name] = value;
    }
    return { values, marks };
  }

  valueOf(field) {
    const text = this.inputs.get(field.name).value.trim();
    if (field.list_of && field.kind === "number") {
      const numbers = this.items(field.name).map(numberOf);
      return numbers.includes(null) ? undefined : numbers;
    }
    if (field.list_of) return this.items(field.name);
    if (field.name === "seen") return text === "" ? null : /^[1-9]\d{0,15}$/.test(text) ? text : undefined;
    if (field.name === "handle") return /^[a-z][a-z0-9_-]{0,31}$/.test(text) ? text : undefined;
    return field.kind === "number" ? numberOf(text) ?? undefined : text;
  }

  async submit() {
    const { values, marks } = this.read();
    mark(this.element, marks);
    find("answer").hidden = true;
    if (marks.length > 0) return say(this.status, "bad", "Nothing was asked. See the fields above.");
    keepInAddress(values);
    say(this.status, "wait", "Asking ..");
    const reply = await this.ask(values);
    if (!reply.ok) return this.refused(reply);
    say(this.status, "");
    showAnswer(reply.text, values);
    return undefined;
  }

  /** Asks about the route, and of many peers in several requests, whose lines are joined. */
  async ask(values) {
    const path = "/routers/" + values.handle + "/explain/" + values.interface + (values.seen ? "?seen=" + values.seen : "");
    const { net, nexthop, pairs, triples, peers = [] } = values;
    let whole = null;
    for (let at = 0; at === 0 || at < peers.length; at += PEERS) {
      const reply = await askWith(path, { net, path: values.path, nexthop, pairs, triples, peers: peers.slice(at, at + PEERS) });
      if (!reply.ok) return reply;
      const more = reply.text.split("\n").filter((line) => line.startsWith("ask ")).join("\n");
      if (whole === null) whole = reply;
      else if (more) whole.text = whole.text.trimEnd() + "\n" + more + "\n";
    }
    return whole;
  }

  refused(reply) {
    say(this.status, "bad", sentence(reply));
    const names = this.refusedFields(reply);
    const marks = this.fields.filter((field) => names.includes(field.name));
    mark(this.element, marks.map((field) => [this.inputs.get(field.name), fieldWords(field, reply)]));
  }

  refusedFields({ rule, detail }) {
    const named = { X1: ["interface"], X7: ["net", "nexthop"], Y2: ["seen"], Y3: ["handle"], path: ["interface", "handle"] };
    if (rule === "X4") return detail.startsWith("router ") ? ["handle"] : ["interface"];
    return rule === "body" ? [detail.split("/")[1]] : named[rule] ?? [];
  }
}

/** Keeps what was asked behind the # of the page's address, which isn't sent, so that it can be asked again. */
function keepInAddress(values) {
  const kept = new URLSearchParams();
  for (const [name, value] of Object.entries(values)) {
    if (name !== "seen" && value !== null) kept.set(name, Array.isArray(value) ? value.join(" ") : value);
  }
  history.replaceState(null, "", "#" + kept);
}

/** The parts of an answer: how the server holds the route, its verdict, and what becomes of it elsewhere. */
function parseAnswer(text) {
  const [first, second, ...rest] = text.trimEnd().split("\n").map((line) => line.split(" "));
  return { held: first[0] === "tagged" ? routeOf(first.slice(1)) : null, reason: second?.[0] === "stopped" ? second[1] ?? "" : null, rest };
}

function routeOf([path, nexthop, pairs, triples]) {
  const list = (text) => text === "-" ? [] : text.split(",");
  return { path: list(path), nexthop, pairs: list(pairs), triples: list(triples) };
}

/** A verdict in words: its reason, what that says, and what to do. */
function showVerdict({ held, reason }) {
  const verdict = find("verdict");
  verdict.className = held && reason === null ? "good" : "bad";
  if (!held) {
    fill(verdict, "Dropped");
    return fill(find("reason"), element("p", {}, "The server's import filter rejects the route, and doesn't keep it."));
  }
  if (reason === null) {
    fill(verdict, "Passed");
    return fill(find("reason"), element("p", {}, "The route is refused for no reason. Where it goes stands below."));
  }
  const known = words.reasons[reason];
  fill(verdict, "Stopped: " + (known ? known.name : "reason " + reason));
  return fill(find("reason"), known ? element("dl", { class: "reason" },
    element("dt", {}, "Why"), element("dd", {}, "Reason " + reason + ": " + known.when + ". Nobody gets the route."),
    element("dt", {}, "What to do"), element("dd", {}, known.advice)) : null);
}

/** What a community of the route says: of the server's own by their table, of those that steer by theirs. RS is the server's AS number. */
function communityWords(community, server) {
  const parts = community.split(":");
  if (parts.length === 3 && parts[0] === server) {
    if (parts[1] === "1101") return capital(words.tags["RS:1101:number"].split(",")[0]) + ", reason " + parts[2] + ": " + (words.reasons[parts[2]]?.name ?? "unknown");
    const tag = words.tags["RS:" + parts[1] + ":" + parts[2]];
    if (tag) return capital(tag);
  }
  return steeringWords(parts, server);
}

function steeringWords(parts, server) {
  const general = parts.map((part) => part === server ? "RS" : part).join(":");
  if (words.steering[general]) return "The route is " + words.steering[general];
  const peer = parts.at(-1);
  const particular = [...parts.slice(0, -1).map((part) => part === server ? "RS" : part), "PEER"].join(":");
  if (words.steering[particular]) return "The route is " + words.steering[particular].replace("this peer", "AS" + peer);
  const times = /^10([123])$/.exec(parts[1]);
  if (parts.length === 3 && parts[0] === server && times) return "Prepended " + countWords(Number(times[1])) + (peer === "0" ? " for every receiver" : " for AS" + peer);
  return "Not for this route server";
}

function countWords(count) {
  return ["no", "once", "twice", "three times"][count] ?? count + " times";
}

function showTags({ held }) {
  const communities = held ? [...held.pairs, ...held.triples] : [];
  const server = held?.triples.at(-1)?.split(":")[0];
  fill(find("tags"), communities.length === 0 ? null : table("Communities of the route in the server's table", ["Community", "Says"],
    communities.map((it) => [element("code", {}, it), communityWords(it, server)])));
}

function memberWords(asn) {
  const member = exported?.member_list.find((it) => String(it.asnum) === asn);
  return "AS" + asn + (member ? ", " + member.name : "");
}

/** A line on a peer that the member asked about. */
function askedRow([, asn, count]) {
  return [memberWords(asn), count === "no" ? "no" : "yes", count === "no" ? "\u2013" : countWords(Number(count))];
}

/** A line on a session, as the staff gets it. */
function sentRow([, session, ...route], held) {
  const name = interfaceWords(directory, session.replace(/^b_/, ""));
  if (route[0] === "no") return [session, name, "no", "\u2013", "\u2013", "\u2013"];
  const sent = routeOf(route);
  const communities = [...sent.pairs, ...sent.triples].join(" ") || "\u2013";
  return [session, name, "yes", countWords(sent.path.length - held.path.length), element("code", {}, sent.nexthop), communities];
}

function showReceivers({ held, reason, rest }) {
  const lines = rest.filter((line) => line[0] === "to" || line[0] === "ask");
  if (!held || reason !== null) return fill(find("receivers"));
  if (lines.length === 0) return fill(find("receivers"), element("p", { class: "hint" }, isStaff() ? "There is no other session." : "No peer was asked about: name some to see who gets the route."));
  if (lines[0][0] === "ask") {
    return fill(find("receivers"), table("Where it is to be sent", ["Peer", "To be sent there", "Prepended"], lines.map(askedRow)),
      element("p", { class: "hint" }, "By your communities and rules. A peer's own rules may still keep the route out; the registry doesn't tell them."));
  }
  return fill(find("receivers"), table("Who gets it", ["Session", "Member", "Gets it", "Prepended", "Next hop", "Communities"], lines.map((line) => sentRow(line, held))));
}

function showAnswer(text) {
  const answer = parseAnswer(text);
  showVerdict(answer);
  showTags(answer);
  showReceivers(answer);
  fill(find("text"), text);
  find("answer").hidden = false;
  find("verdict").focus();
}

/** Sets the form up. What stands behind the # of the page's address is filled in. */
async function start() {
  const form = new RouteForm([ROUTER, INTERFACE, ...ROUTE, isStaff() ? SEEN : PEERS_FIELD]);
  const given = new URLSearchParams(location.hash.slice(1));
  for (const [name, input] of form.inputs) input.value = given.get(name) ?? "";
  if (isStaff()) form.inputs.get("seen").value = lastDone() ?? "";
  exported = await readExport(form.status);
  if (!exported) return;
  directory = await readDirectory(exported);
  offer(directory);
}

frame(start);
