// A form that makes an edit. It says what becomes of it, and shows refusals at the fields that they are about.
import { confirmed, element, fieldRow, mark, say } from "./elements.js";
import { fieldWords, fieldsOf, kindWords, refusalWords } from "./refusals.js";
import { makeEdit, unsentEdit, watchEdits } from "./registry.js";
import { numberOf, RuleEditor } from "./rules.js";

const BUSY = "An edit is on its way and has no reply yet. Nothing new was sent.";

/** The value of an input as the registry takes it; undefined where it isn't of its form. */
function valueOf(field, input) {
  const text = input.value.trim();
  if (field.kind === "flag") return input.checked;
  if (field.kind === "number") return numberOf(text) ?? undefined;
  if (field.kind === "handle" && field.path) return /^[a-z][a-z0-9_-]{0,31}$/.test(text) ? text : undefined;
  if (field.kind === "lines") return input.value;
  if (field.kind?.endsWith("?")) return text || null;
  return field.name === "name" ? input.value : text;
}

function randomSecret() {
  const letters = "ABCDEFGHIJKLMNOPQRSTUVWXYZabcdefghijklmnopqrstuvwxyz0123456789";
  const made = [];
  while (made.length < 32) {
    for (const byte of crypto.getRandomValues(new Uint8Array(64))) {
      if (byte < 248 && made.length < 32) made.push(letters[byte % 62]);
    }
  }
  return made.join("");
}

export class EditForm {
  /**
   * A form for an edit of forms.js. `fixed` has values of fields that aren't shown, `button` the text of its button, `before` is asked whether it may
   * be sent, `done` is called when it was made.
   */
  constructor(form, { fixed = {}, button = form.title, before = async () => true, done = () => {} } = {}) {
    Object.assign(this, { form, fixed, before, done });
    this.inputs = new Map();
    this.status = element("div", { class: "message", role: "status", hidden: true });
    this.button = element("button", { type: "submit", class: form.method === "DELETE" ? "danger" : "main" }, button);
    const rows = form.fields.filter((field) => !(field.name in fixed)).map((field) => this.row(field));
    this.element = element("form", { class: "edit", novalidate: true, id: form.id },
      element("div", { class: "fields" }, ...rows), element("p", { class: "buttons" }, this.button), this.status);
    this.element.addEventListener("submit", (event) => {
      event.preventDefault();
      this.submit();
    });
    this.element.addEventListener("input", () => this.touch());
    watchEdits((event) => this.happened(event));
  }

  row(field) {
    if (field.kind === "rules") {
      this.editor = new RuleEditor(() => this.touch());
      return this.editor.element;
    }
    const row = fieldRow(field);
    const input = row.querySelector("input, select, textarea");
    this.inputs.set(field.name, input);
    if (this.form.id === "add-key" && field.name === "secret") {
      const make = () => {
        input.value = randomSecret();
        this.touch();
      };
      row.append(element("button", { type: "button", class: "small", onclick: make }, "Make one at random"));
    }
    return row;
  }

  /** Something in the form has changed, so it may be sent again. */
  touch() {
    this.made = null;
  }

  set(values) {
    for (const [name, value] of Object.entries(values)) this.inputs.get(name).value = value;
    this.touch();
    mark(this.element, []);
    say(this.status, "");
  }

  /** The values of all fields, and marks at those that aren't of their form. */
  read() {
    const values = { ...this.fixed };
    const marks = [];
    for (const field of this.form.fields) {
      const input = this.inputs.get(field.name);
      if (field.kind === "rules") {
        const read = this.editor.read();
        values.rules = read.rules;
        marks.push(...read.marks);
      } else if (input) {
        values[field.name] = valueOf(field, input);
        if (values[field.name] === undefined) marks.push([input, kindWords(field.kind)]);
      }
    }
    return { values, marks };
  }

  path(values) {
    return this.form.path.replace(/\{([^}]*)\}/g, (_, name) => values[name === "4 or 6" ? "family" : name]);
  }

  body(values) {
    if (this.form.method === "DELETE") return undefined;
    if ("lines" in values) return values.lines;
    if ("rules" in values) return values.rules;
    const inBody = this.form.fields.filter((field) => !field.path);
    return Object.fromEntries(inBody.map((field) => [field.name, values[field.name]]));
  }

  /** What the edit is, in words. */
  about(values) {
    const shown = this.form.fields.filter((field) => field.path || ["number", "handle"].includes(field.name));
    return this.form.title + " (" + shown.map((field) => field.name + " " + values[field.name]).join(", ") + ")";
  }

  async submit() {
    const { values, marks } = this.read();
    mark(this.element, marks);
    if (marks.length > 0) return say(this.status, "bad", "Nothing was sent. See the fields above.");
    const [path, body] = [this.path(values), this.body(values)];
    const same = JSON.stringify([path, body]);
    if (this.made === same) return say(this.status, "good", "This was made already, with the number " + this.edit.number + ". Nothing new was sent.");
    if (unsentEdit() || this.asking) return say(this.status, "wait", BUSY);
    if (!(await this.asked(values))) return undefined;
    this.values = values;
    say(this.status, "wait", "Sending ..");
    this.sent = same;
    this.edit = makeEdit(this.about(values), this.form.method, path, body);
    return this.edit ? undefined : say(this.status, "wait", BUSY);
  }

  /** Whether the edit is to be sent, after all that has to be asked before. */
  async asked(values) {
    this.asking = true;
    const yes = this.form.method !== "DELETE" || await confirmed(this.about(values) + "?", this.button.textContent);
    const goes = yes && await this.before();
    this.asking = false;
    return goes;
  }

  /** Something has become of an edit. */
  happened({ what, edit, reply }) {
    if (!this.edit || edit !== this.edit) return;
    if (what === "waiting") say(this.status, "wait", "No reply yet. The edit is sent again with its number " + edit.number + "; a second click sends nothing new.");
    if (what === "stopped") say(this.status, "wait", "No reply came. See the top of the page.");
    if (what === "given up") say(this.status, "", "The edit was given up. Look whether it was made.");
    if (what === "refused") this.refused(reply);
    if (what === "done") {
      this.made = this.sent;
      say(this.status, "good", "Done. The number of the edit is " + edit.number + (edit.tries > 1 ? "; it was sent " + edit.tries + " times, and acts once." : "."));
      this.done(this.values, edit);
    }
  }

  refused(reply) {
    say(this.status, "bad", refusalWords(this.edit, reply));
    const marks = [];
    for (const field of fieldsOf(this.form, reply, this.values)) {
      const input = field.kind === "rules" ? this.editor.refused(reply) : this.inputs.get(field.name);
      if (input) marks.push([input, fieldWords(field, reply)]);
    }
    mark(this.element, marks);
  }
}
