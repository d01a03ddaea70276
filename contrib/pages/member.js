// A member's data, contacts, rules and lists.
import { element, fieldRow, fill, find, mark, say, table } from "./elements.js";
import { EditForm } from "./editing.js";
import { parsePrefix } from "./addresses.js";
import { frame } from "./frame.js";
import { groups } from "./forms.js";
import { kindWords, sentence } from "./refusals.js";
import { ask, isStaff, watchEdits } from "./registry.js";
import { numberOf, ruleWords } from "./rules.js";

/** So many prefixes or origins of a list are shown. */
const SHOWN = 400;

const forms = new Map(groups.flatMap(([, of]) => of).map((form) => [form.id, form]));

/** The member that is shown, what was read of it, and its forms; and the number that was asked for last. */
let shown = null;
let wanted = null;

async function read(path) {
  const reply = await ask(path);
  return reply.ok ? JSON.parse(reply.text) : { refused: reply };
}

async function showMember(number) {
  const status = find("status");
  wanted = number;
  shown = null;
  find("member").hidden = true;
  say(status, "wait", "Asking ..");
  const path = "/members/" + number;
  const [member, contacts, rules] = [await read(path), await read(path + "/contacts"), await read(path + "/rules")];
  const refused = member.refused ?? contacts.refused ?? rules.refused;
  if (refused) return say(status, "bad", sentence(refused));
  say(status, "");
  shown = { number, member, rules };
  showData(member);
  makeForms(number);
  showContacts(contacts);
  shown.macro.set({ macro: member.macro });
  shown.rulesForm.editor.show(rules);
  showPreview();
  showLists(member);
  find("member").hidden = false;
  return undefined;
}

function showData(member) {
  document.title = member.name + " - member";
  fill(find("title"), member.name);
  const facts = [["AS number", "AS" + member.asn], ["Number", String(member.number)], ["Status", member.status], ["AS-SET", member.macro || "none"]];
  fill(find("data"), ...facts.map(([name, value]) => element("div", {}, element("dt", {}, name), element("dd", {}, value))));
}

/** Reads a part of the member again after an edit. */
async function again(path, show) {
  const found = await read("/members/" + shown.number + path);
  if (!found.refused) show(found);
}

function makeForms(number) {
  const fixed = { member: number };
  const contactsAgain = () => again("/contacts", showContacts);
  shown.contact = new EditForm(forms.get("put-contact"), { fixed, button: "Save the contact", done: contactsAgain });
  shown.drop = new EditForm(forms.get("drop-contact"), { fixed: { ...fixed, place: null }, button: "Delete the contact", done: contactsAgain });
  shown.rulesForm = new EditForm(forms.get("set-rules"), { fixed, button: "Save the rules", before: rulesAreThose, done: () => again("/rules", (rules) => { shown.rules = rules; }) });
  shown.rulesForm.element.addEventListener("click", () => showPreview());
  shown.rulesForm.element.addEventListener("input", () => showPreview());
  shown.macro = new EditForm(forms.get("set-macro"), { fixed, button: "Save the AS-SET", done: () => again("", macroChanged) });
  shown.contact.element.addEventListener("input", titleContact);
  fill(find("contact"), shown.contact.element);
  fill(find("rules"), shown.rulesForm.element);
  fill(find("macro"), shown.macro.element);
}

function macroChanged(member) {
  showData(member);
  showLists(member);
}

/** The least place that no contact has. */
function freePlace(contacts) {
  let place = 1;
  while (contacts.some((contact) => contact.place === place)) place += 1;
  return place;
}

function showContacts(contacts) {
  const act = (text, contact, what) => element("button", { type: "button", class: "small", "aria-label": text + " contact " + contact.place, onclick: () => what(contact) }, text);
  const rows = contacts.map((contact) => [String(contact.place), contact.name, contact.mail, contact.role,
    element("span", { class: "buttons" }, act("Change", contact, changeContact), act("Delete", contact, dropContact))]);
  fill(find("contacts"), rows.length === 0 ? element("p", {}, "There are no contacts.") : table("Contacts", ["Place", "Name", "Mail", "Role", ""], rows, true), shown.drop.status,
    element("p", { class: "buttons" }, element("button", { type: "button", onclick: () => changeContact({ place: freePlace(contacts), name: "", mail: "", role: "" }) }, "Add a contact")));
  shown.contacts = contacts;
  const place = shown.contact.inputs.get("place");
  if (place.value === "") place.value = freePlace(contacts);
  titleContact();
}

/** Says whether the form would add a contact or change one. */
function titleContact() {
  const place = shown.contact.inputs.get("place").value.trim();
  const known = shown.contacts.some((contact) => String(contact.place) === place);
  fill(find("contact-title"), known ? "Change contact " + place : "Add a contact");
}

function changeContact(contact) {
  shown.contact.set({ place: contact.place, name: contact.name, mail: contact.mail, role: contact.role });
  titleContact();
  shown.contact.inputs.get("name").focus();
}

function dropContact(contact) {
  shown.drop.fixed.place = contact.place;
  shown.drop.touch();
  shown.drop.submit();
}

/** Whether the registry still has the rules that were shown. Others are shown first, so that nobody's are lost. */
async function rulesAreThose() {
  const present = await read("/members/" + shown.number + "/rules");
  if (present.refused || JSON.stringify(present) === JSON.stringify(shown.rules)) return true;
  shown.rules = present;
  shown.rulesForm.editor.show(present);
  say(shown.rulesForm.status, "bad", "Nothing was sent: somebody else has changed the rules. Those of the registry are shown now; make your changes again.");
  return false;
}

const PREVIEW = [
  { name: "way", label: "Route", options: [["advertise", "of this member, to the peer"], ["receive", "of the peer, to this member"]] },
  { name: "peer", label: "Peer", kind: "number", hint: "An AS number." },
  { name: "prefix", label: "Prefix", kind: "prefix" },
];

function makePreview() {
  const form = find("preview");
  fill(form, element("div", { class: "fields" }, ...PREVIEW.map(fieldRow)));
  form.addEventListener("submit", (event) => event.preventDefault());
  form.addEventListener("input", showPreview);
}

/** Says what the rules in the editor do to the route that is described. */
function showPreview() {
  const form = find("preview");
  const [way, peer, prefix] = PREVIEW.map((field) => form.querySelector('[name="' + field.name + '"]'));
  const [asn, net] = [numberOf(peer.value), parsePrefix(prefix.value.trim())];
  const marks = [];
  if (peer.value && asn === null) marks.push([peer, kindWords("number")]);
  if (prefix.value && net === null) marks.push([prefix, kindWords("prefix")]);
  const focused = document.activeElement;
  mark(form, marks);
  focused?.focus();
  if (asn === null || net === null) return say(find("preview-words"), "");
  return say(find("preview-words"), "told", ruleWords(shown.rulesForm.editor.read().rules, way.value, asn, net));
}

function showLists(member) {
  const macro = member.macro ? element("p", {}, "The exchange makes the lists of prefixes and origins from ", element("code", {}, member.macro), ".")
    : element("p", {}, "No AS-SET is set.");
  if (!isStaff()) {
    return fill(find("lists"), macro, element("p", { class: "hint" }, "The lists themselves can't be read with a member's key. The page Explain says of a route whether they allow it."));
  }
  const row = fieldRow({ name: "handle", label: "Route server", hint: "Its handle, as rs1. The lists are read from its configuration." });
  const status = element("div", { role: "status" });
  const form = element("form", { class: "edit", id: "read-lists", novalidate: true }, row, element("p", { class: "buttons" }, element("button", {}, "Show the lists")), status);
  form.addEventListener("submit", (event) => {
    event.preventDefault();
    readLists(member, row.querySelector("input").value.trim(), status);
  });
  return fill(find("lists"), macro, form);
}

async function readLists(member, handle, status) {
  if (!/^[a-z][a-z0-9_-]{0,31}$/.test(handle)) return fill(status, "This is no handle.");
  fill(status, "Asking ..");
  const reply = await ask("/routers/" + handle + "/config");
  if (!reply.ok) return fill(status, sentence(reply));
  const rows = sessionsOf(reply.text, member.asn).map(({ session, address }) => ["b_" + session, address, listWords(reply.text, "irr_" + session), listWords(reply.text, "org_" + session)]);
  return fill(status, rows.length === 0 ? "The member has no session with this route server." : table("Lists of the sessions", ["Session", "Address", "Prefixes", "Origins"], rows));
}

/** The sessions of a configuration that are with an AS number. */
function sessionsOf(config, asn) {
  return [...config.matchAll(/^protocol bgp b_(\d+) \{\n.*\n {2}neighbor (\S+) as (\d+);/gm)]
    .filter((found) => found[3] === String(asn)).map((found) => ({ session: found[1], address: found[2] }));
}

/** A list of a configuration as a text of its items. */
function listWords(config, name) {
  const start = config.indexOf("\ndefine " + name + " = [");
  if (start < 0) return "none";
  const items = config.slice(config.indexOf("[", start) + 1, config.indexOf("]", start)).match(/[^,\s{]+(\{\d+,\d+\})?/g) ?? [];
  return items.slice(0, SHOWN).join(" ") + (items.length > SHOWN ? " and " + (items.length - SHOWN) + " more" : "");
}

function start(owner) {
  makePreview();
  const given = new URLSearchParams(location.hash.slice(1)).get("member");
  if (owner.member !== null) {
    showMember(owner.member);
    return;
  }
  const choose = find("choose");
  choose.hidden = false;
  choose.addEventListener("submit", (event) => {
    event.preventDefault();
    const number = numberOf(find("number").value);
    if (number === null) return say(find("status"), "bad", kindWords("number"));
    history.replaceState(null, "", "#member=" + number);
    return showMember(number);
  });
  if (given !== null && numberOf(given) !== null) {
    find("number").value = given;
    showMember(numberOf(given));
  }
}

/** An edit of before a reload has its reply now, so the member is read again. */
watchEdits(({ what, edit }) => {
  const ours = shown !== null && [shown.contact, shown.drop, shown.rulesForm, shown.macro].some((form) => form.edit === edit);
  if (what === "done" && wanted !== null && !ours) showMember(wanted);
});

frame(start);
