// All edits, a form each.
import { offer, readDirectory } from "./directory.js";
import { EditForm } from "./editing.js";
import { element, fill, find, say } from "./elements.js";
import { groups } from "./forms.js";
import { frame, readExport } from "./frame.js";
import { capital, kindWords, sentence } from "./refusals.js";
import { ask } from "./registry.js";
import { numberOf } from "./rules.js";
import { words } from "./words.js";

/** The row of docs/API.md on an edit. The form on the public lists stands for four. */
function rowOf(form) {
  const path = form.path.replace("{list}", "bogons");
  return words.edits.find((edit) => edit.method === form.method && edit.path === path);
}

/** Why an edit may be refused, in words. */
function refusalsOf(form) {
  const row = rowOf(form);
  return element("details", { class: "refusals" }, element("summary", {}, "Who may do it, and what it is refused for"),
    element("p", {}, capital(row.who.join(" and ")) + ". ", element("code", {}, form.method + " " + form.path)),
    element("ul", {}, ...row.refusals.filter((code) => words.rules[code]).map((code) => element("li", {}, code + ": " + words.rules[code].when))));
}

/** A button that puts the present rules of the member into the editor. */
function loadButton(made) {
  const load = async () => {
    const number = numberOf(made.inputs.get("member").value);
    if (number === null) return say(made.status, "bad", kindWords("number"));
    const reply = await ask("/members/" + number + "/rules");
    if (!reply.ok) return say(made.status, "bad", sentence(reply));
    made.editor.show(JSON.parse(reply.text));
    return say(made.status, "");
  };
  return element("button", { type: "button", onclick: load }, "Load the present rules");
}

function section(form) {
  const made = new EditForm(form);
  if (made.editor) made.button.before(loadButton(made), " ");
  return element("details", { class: "panel edit-panel", "data-edit": form.method + " " + form.path }, element("summary", {}, element("h3", {}, form.title)), made.element, refusalsOf(form));
}

function groupId(title) {
  return "group-" + title.toLowerCase().replaceAll(" ", "-");
}

async function start() {
  fill(find("groups"), element("ul", {}, ...groups.map(([title]) => element("li", {}, element("a", { href: "#" + groupId(title) }, title)))));
  fill(find("forms"), ...groups.map(([title, forms]) => element("section", { id: groupId(title), tabindex: "-1" }, element("h2", {}, title), ...forms.map(section))));
  const exported = await readExport(element("p"));
  if (exported) offer(await readDirectory(exported));
}

frame(start);
