// Elements of a page. Every text is put in as text, none as HTML.

/** An element with attributes and children. A child is an element or a text; null and undefined are left out. */
export function element(name, attributes = {}, ...children) {
  const made = document.createElement(name);
  for (const [key, value] of Object.entries(attributes)) {
    if (key.startsWith("on")) made.addEventListener(key.slice(2), value);
    else if (value === true) made.setAttribute(key, "");
    else if (value !== false && value !== null && value !== undefined) made.setAttribute(key, value);
  }
  made.append(...children.filter((child) => child !== null && child !== undefined));
  return made;
}

/** Puts children in the place of all that an element has. */
export function fill(parent, ...children) {
  parent.replaceChildren(...children.filter((child) => child !== null && child !== undefined));
}

export function find(id) {
  return document.getElementById(id);
}

/** A message that screen readers tell: kind is "good", "bad", "wait" or "". */
export function say(place, kind, ...children) {
  place.className = kind ? "message " + kind : "message";
  place.hidden = children.length === 0;
  fill(place, ...children);
}

/** A table with a caption, the heads of its columns, and rows of texts or elements. The first cell of a row is its head. The caption may be one for screen readers alone. */
export function table(caption, heads, rows, quiet = false) {
  const head = element("tr", {}, ...heads.map((text) => element("th", { scope: "col" }, text)));
  const body = element("tbody", {}, ...rows.map((cells) => tableRow(heads, cells)));
  return element("div", { class: "scroll", role: "region", "aria-label": caption, tabindex: "0" },
    element("table", {}, element("caption", { class: quiet ? "hidden" : null }, caption), element("thead", {}, head), body));
}

/** A row of a table. On narrow screens each cell stands on a line of its own, behind the head of its column. */
export function tableRow(heads, cells) {
  return element("tr", {}, ...cells.map((cell, at) => at === 0
    ? element("th", { scope: "row", "data-head": heads[at] }, cell)
    : element("td", { "data-head": heads[at] }, cell)));
}

let fields = 0;

/** The input of a field: a text, a choice of options, a flag or lines. */
function inputOf(field, id, described) {
  const common = { id, name: field.name, "aria-describedby": described };
  if (field.options) {
    return element("select", common, ...field.options.map(([value, text]) => element("option", { value }, text)));
  }
  if (field.kind === "flag") return element("input", { ...common, type: "checkbox" });
  const text = { ...common, autocomplete: "off", spellcheck: "false", autocapitalize: "off" };
  if (field.kind === "lines") return element("textarea", { ...text, rows: field.rows ?? 8 });
  const list = field.list ? { list: field.list } : {};
  return element("input", { ...text, ...list, type: "text", inputmode: field.kind === "number" ? "numeric" : null });
}

/**
 * A field of a form: its label, its input, a hint, and a place for what is wrong with it. A field has a name, a label, and perhaps a kind ("number",
 * "flag", "lines", ..), options, a hint and a first value.
 */
export function fieldRow(field) {
  fields += 1;
  const id = "field-" + fields;
  const input = inputOf(field, id, id + "-hint " + id + "-wrong");
  if (field.value !== undefined) input.value = field.value;
  if (field.on) input.checked = true;
  const label = element("label", { for: id }, field.label);
  const hint = element("p", { id: id + "-hint", class: "hint" }, field.hint ?? "");
  const wrong = element("p", { id: id + "-wrong", class: "wrong" });
  const parts = field.kind === "flag" ? [element("span", { class: "flag" }, input, label), wrong, hint] : [label, input, wrong, hint];
  return element("div", { class: field.kind === "lines" ? "field wide" : "field" }, ...parts);
}

/** Marks inputs with what is wrong with them. Each mark is an input and a text. The first input gets the focus. */
export function mark(form, marks) {
  for (const input of form.querySelectorAll("[aria-invalid]")) input.removeAttribute("aria-invalid");
  for (const wrong of form.querySelectorAll(".wrong")) fill(wrong);
  for (const [input, text] of marks) {
    input.setAttribute("aria-invalid", "true");
    const wrong = find(input.id + "-wrong");
    if (wrong) fill(wrong, text);
  }
  if (marks.length > 0) marks[0][0].focus();
}

/** Asks by a dialog whether to go on. */
export function confirmed(question, yes) {
  const dialog = element("dialog", { "aria-labelledby": "question" },
    element("form", { method: "dialog" },
      element("p", { id: "question" }, question),
      element("p", { class: "buttons" },
        element("button", { value: "yes", class: "danger" }, yes),
        element("button", { value: "no", autofocus: true }, "Cancel"))));
  document.body.append(dialog);
  dialog.showModal();
  return new Promise((resolve) => {
    dialog.addEventListener("close", () => {
      dialog.remove();
      resolve(dialog.returnValue === "yes");
    });
  });
}

/** Gives a text to the browser to be stored as a file. */
export function download(name, text) {
  const address = URL.createObjectURL(new Blob([text], { type: "text/plain" }));
  const link = element("a", { href: address, download: name });
  document.body.append(link);
  link.click();
  link.remove();
  setTimeout(() => URL.revokeObjectURL(address), 10000);
}

/** A number with blanks between its thousands. */
export function grouped(number) {
  return String(number).replace(/\B(?=(\d{3})+(?!\d))/g, "\u202f");
}
