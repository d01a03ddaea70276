// A member's rules: their editor, and what they do to a route (docs/POLICY.md, "By a member's rules").
import { covers, parsePrefix } from "./addresses.js";
import { element, fill, tableRow } from "./elements.js";
import { kindWords } from "./refusals.js";

const WAYS = [["advertise", "advertise to"], ["receive", "receive from"]];
const ACTIONS = [["as-is", "as it is"], ["prepend1", "prepend once"], ["prepend2", "prepend twice"], ["prepend3", "prepend three times"], ["stop", "stop"]];
const HEADS = ["Rule", "Way", "Peer", "Prefix", "Action", "Order"];

/** A number as people write it: decimal, perhaps with AS in front. Null where it is none below 2 to the 32nd. */
export function numberOf(text) {
  const found = /^(?:AS)?(0|[1-9]\d{0,9})$/i.exec(text.trim());
  return found && Number(found[1]) < 4294967296 ? Number(found[1]) : null;
}

/** The place of the first rule of a way that is about a peer and a prefix, counted from 1, or 0. */
export function deciding(rules, way, peer, prefix) {
  return 1 + rules.findIndex((rule) => rule.way === way && (rule.peer === null || rule.peer === peer) && isAbout(rule.prefix, prefix));
}

function isAbout(text, prefix) {
  if (text === null) return true;
  const outer = parsePrefix(text);
  return outer !== null && covers(outer, prefix);
}

const SENT = { "as-is": "is to be sent to AS%p as it is", prepend1: "is to be sent to AS%p with your AS number once more in front", prepend2: "is to be sent to AS%p with your AS number twice more in front",
  prepend3: "is to be sent to AS%p with your AS number three times more in front", stop: "isn't sent to AS%p" };

/** What rules do to a route, as a sentence. */
export function ruleWords(rules, way, peer, prefix) {
  const place = deciding(rules, way, peer, prefix);
  if (way === "advertise") {
    if (place === 0) return "No rule is about this route and AS" + peer + ": the communities of the route decide.";
    return "Rule " + place + " decides: the route " + SENT[rules[place - 1].action].replace("%p", peer) + ", whatever its communities say.";
  }
  if (place === 0) return "No rule is about this route and AS" + peer + ": you get it, if AS" + peer + " sends it to you.";
  return "Rule " + place + " decides: the route of AS" + peer + (rules[place - 1].action === "stop" ? " is kept from you." : " is let in, if AS" + peer + " sends it to you.");
}

let inputs = 0;

/** Edits an ordered list of rules. `changed` is called after each change. */
export class RuleEditor {
  constructor(changed = () => {}) {
    this.changed = changed;
    this.body = element("tbody");
    const head = element("tr", {}, ...HEADS.map((text) => element("th", { scope: "col" }, text)));
    this.empty = element("p", { class: "hint" }, "There are no rules.");
    this.add = element("button", { type: "button", onclick: () => this.insert() }, "Add a rule");
    this.element = element("div", { class: "rules field wide" },
      element("table", {}, element("caption", {}, "Rules, in their order"), element("thead", {}, head), this.body), this.empty,
      element("p", { class: "buttons" }, this.add));
    this.show([]);
  }

  /** Puts these rules in the place of all. */
  show(rules) {
    fill(this.body, ...rules.map((rule) => this.row(rule)));
    this.renumber();
  }

  insert() {
    const row = this.row({ way: "advertise", peer: null, prefix: null, action: "as-is" });
    this.body.append(row);
    this.renumber();
    row.querySelector("select").focus();
  }

  row(rule) {
    const cell = (input) => element("div", {}, input, element("p", { class: "wrong", id: input.id + "-wrong" }));
    const choice = (name, options, value) => {
      const select = element("select", this.named(name), ...options.map(([key, text]) => element("option", { value: key, selected: key === value }, text)));
      return cell(select);
    };
    const text = (name, value, any) => cell(element("input", { ...this.named(name), type: "text", value: value ?? "", placeholder: any, autocomplete: "off", spellcheck: "false" }));
    const row = tableRow(HEADS, ["", choice("way", WAYS, rule.way), text("peer", rule.peer, "any AS number"), text("prefix", rule.prefix, "any prefix"),
      choice("action", ACTIONS, rule.action), this.buttons()]);
    row.addEventListener("input", () => this.changed());
    return row;
  }

  named(name) {
    inputs += 1;
    return { id: "rule-" + name + "-" + inputs, "data-name": name, "aria-describedby": "rule-" + name + "-" + inputs + "-wrong" };
  }

  buttons() {
    const button = (text, what, act) => element("button", { type: "button", class: "small", "data-what": what, onclick: (event) => act(event.currentTarget) }, text);
    return element("span", { class: "buttons" }, button("\u2191", "Up", (it) => this.move(it, -1)), button("\u2193", "Down", (it) => this.move(it, 1)),
      button("\u00d7", "Remove", (it) => this.remove(it)));
  }

  move(button, by) {
    const rows = [...this.body.rows];
    const row = button.closest("tr");
    const other = rows[rows.indexOf(row) + by];
    if (!other) return;
    if (by < 0) other.before(row);
    else other.after(row);
    this.renumber();
    button.focus();
  }

  remove(button) {
    const row = button.closest("tr");
    const next = row.nextElementSibling ?? row.previousElementSibling;
    row.remove();
    this.renumber();
    (next?.querySelector("select") ?? this.add).focus();
  }

  /** Numbers the rows anew, and names their inputs by it. */
  renumber() {
    for (const [at, row] of [...this.body.rows].entries()) {
      fill(row.cells[0], String(at + 1));
      for (const input of row.querySelectorAll("[data-name]")) input.setAttribute("aria-label", row.cells[0].textContent + ". rule, " + input.dataset.name);
      for (const button of row.querySelectorAll("[data-what]")) button.setAttribute("aria-label", button.dataset.what + ", rule " + (at + 1));
    }
    this.empty.hidden = this.body.rows.length > 0;
    this.changed();
  }

  /** The input of a rule, counted from 0, with the name of a field. */
  input(at, name) {
    return this.body.rows[at]?.querySelector('[data-name="' + name + '"]') ?? null;
  }

  /** The rules as the registry takes them, and marks at inputs that are no numbers. */
  read() {
    const rules = [];
    const marks = [];
    for (const [at] of [...this.body.rows].entries()) {
      const value = (name) => this.input(at, name).value.trim();
      const peer = value("peer") === "" ? null : numberOf(value("peer"));
      if (peer === null && value("peer") !== "") marks.push([this.input(at, "peer"), kindWords("number")]);
      rules.push({ way: value("way"), peer, prefix: value("prefix") || null, action: value("action") });
    }
    return { rules, marks };
  }

  /** The input that a refusal is about, or null. */
  refused(reply) {
    if (reply.rule === "X15") return this.input(Number(reply.detail) - 1, "action");
    const [, at, name] = reply.rule === "body" ? reply.detail.split("/") : [];
    return name ? this.input(Number(at), name) : null;
  }
}
