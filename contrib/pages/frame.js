// What all pages have: whose key is used, and what becomes of an edit that has no reply.
import { confirmed, element, fieldRow, fill, find, mark, say } from "./elements.js";
import { refusalWords, sentence } from "./refusals.js";
import { ask, giveUp, identity, memberExport, signIn, signOut, tryAgain, unsentEdit, watchEdits } from "./registry.js";
import { numberOf } from "./rules.js";

let begin = () => {};

/** Whose key it is, in words. */
function ownerWords(owner) {
  if (!owner) return "No key";
  return owner.member === null ? "Key of the staff" : "Key of member " + owner.member;
}

/** Asks the registry by a key whether it is the staff's, or may read the member. */
async function tryKey(key, member) {
  if (member !== null) return ask("/members/" + member, key);
  const vlans = await firstVlan();
  const reply = await ask("/vlans/" + vlans + "/use/4", key);
  return reply.rule === "X4" ? { ...reply, ok: true } : reply;
}

async function firstVlan() {
  const reply = await memberExport();
  return reply.ok ? JSON.parse(reply.text).ixp_list[0].vlan[0]?.id ?? 1 : 1;
}

/** Why a key isn't taken, in words. */
function refusedKey(reply, member) {
  if (reply.rule !== "X1") return sentence(reply);
  return member === null ? "This is a member's key: give the member's number too. (X1)" : "This key isn't of member " + member + ". (X1)";
}

function signInForm() {
  const key = fieldRow({ name: "key", label: "API key", hint: "It is kept in this tab alone, until the tab is closed." });
  const member = fieldRow({ name: "member", label: "Member's number", kind: "number", hint: "Leave it empty with a key of the staff." });
  key.querySelector("input").type = "password";
  const status = element("div", { class: "message", role: "status", hidden: true });
  const form = element("form", { class: "edit", id: "sign-in", novalidate: true },
    element("div", { class: "fields" }, key, member), element("p", { class: "buttons" }, element("button", { class: "main" }, "Use this key")), status);
  form.addEventListener("submit", (event) => {
    event.preventDefault();
    useKey(form, status);
  });
  return form;
}

async function useKey(form, status) {
  const [keyInput, memberInput] = form.querySelectorAll("input");
  const [key, text] = [keyInput.value.trim(), memberInput.value.trim()];
  const member = text === "" ? null : numberOf(text);
  const marks = [];
  if (!/^[!-~]+$/.test(key)) marks.push([keyInput, "An API key has letters and digits alone."]);
  if (text !== "" && member === null) marks.push([memberInput, "This is no number of a member."]);
  mark(form, marks);
  if (marks.length > 0) return;
  say(status, "wait", "Asking the registry ..");
  const reply = await tryKey(key, member);
  if (!reply.ok) {
    say(status, "bad", refusedKey(reply, member));
    mark(form, [[reply.rule === "X4" ? memberInput : keyInput, refusedKey(reply, member)]]);
    return;
  }
  signIn(key, member);
  show();
}

async function forget() {
  const open = unsentEdit();
  if (open && !(await confirmed("An edit has no reply yet: " + open.about + ". Forget it with the key?", "Forget both"))) return;
  if (open) giveUp();
  signOut();
  window.location.reload();
}

/** Shows whose key it is, hides what isn't for its owner, and begins the page. */
function show() {
  const owner = identity();
  fill(find("account"), element("span", { id: "owner" }, ownerWords(owner)),
    owner ? element("button", { type: "button", class: "small", onclick: forget }, "Forget the key") : null);
  for (const link of document.querySelectorAll("[data-staff]")) link.hidden = owner !== null && owner.member !== null;
  const key = find("key");
  key.hidden = owner !== null;
  fill(key, owner ? null : element("h2", {}, "Key"), owner ? null : signInForm());
  if (find("content")) find("content").hidden = owner === null;
  if (owner) begin(owner);
}

/** The notice on an edit without a reply, at the top of each page. */
function showUnsent({ what, edit, reply, seconds }) {
  const place = find("unsent");
  const name = edit ? edit.about + ", number " + edit.number : "";
  const buttons = element("p", { class: "buttons" }, element("button", { type: "button", onclick: tryAgain }, "Send it again now"),
    element("button", { type: "button", onclick: abandon }, "Give it up"));
  const kept = edit?.kept === false ? " It is too long to be kept in this tab: don't leave the page." : "";
  if (what === "sending" && edit.tries > 1) say(place, "wait", element("p", {}, "An edit had no reply: " + name + ". It is being sent again with its number, try " + edit.tries + "." + kept));
  if (what === "waiting") {
    say(place, "wait", element("p", {}, sentence(reply) + " It isn't known whether the edit was made: " + name + ". In " + seconds
      + " s it is sent again with its number, so that it acts once." + kept), buttons);
  }
  if (what === "stopped") say(place, "bad", element("p", {}, "No reply after " + edit.tries + " tries: " + name + ". It isn't known whether the edit was made." + kept), buttons);
  if (what === "given up") say(place, "");
  if (what === "done") ended(place, edit, "good", "The edit was made: " + name + ". It was sent " + edit.tries + " times with this number, and acts once.");
  if (what === "refused") ended(place, edit, "bad", "The edit was refused: " + name + ". " + refusalWords(edit, reply));
}

/** An edit that was sent more than once is told at the top; else its form tells it. */
function ended(place, edit, kind, text) {
  if (edit.tries > 1) say(place, kind, element("p", {}, text));
  else say(place, "");
}

async function abandon() {
  const edit = unsentEdit();
  if (edit && await confirmed("It isn't known whether this edit was made: " + edit.about + ". Look at it afterwards. Give it up?", "Give it up")) giveUp();
}

/** Sets a page up. `start` is called with the owner of the key as soon as there is one. */
export function frame(start) {
  begin = start;
  watchEdits(showUnsent);
  show();
  if (unsentEdit()) tryAgain();
}

/** The registry's member export, or a message in a place where it didn't come. */
export async function readExport(place) {
  const reply = await memberExport();
  if (reply.ok) return JSON.parse(reply.text);
  say(place, "bad", sentence(reply));
  return null;
}
