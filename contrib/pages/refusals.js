// Refusals in words, and the fields of a form that they are about. The words are those of docs/API.md.
import { parseAddress } from "./addresses.js";
import { words } from "./words.js";

/** What the web server in front says by a status without a rule. */
const WEB_SERVER = {
  403: "The web server in front of the registry doesn't take this from your network.",
  413: "The web server in front of the registry doesn't take a text so long.",
  429: "Too many requests in a short time. Wait a moment.",
};

export function capital(text) {
  return text.charAt(0).toUpperCase() + text.slice(1);
}

function detailWords(rule, detail) {
  const parts = detail.split(" ");
  switch (rule) {
    case "X1": return detail === "staff" ? "it takes a key of the staff" : "it takes a key of the staff or of " + detail;
    case "X7": return "IPv" + detail + " is wanted";
    case "X8": return "VLAN " + detail;
    case "X10": return detail === "none" ? "it has no member" : "it has member " + detail;
    case "X12": return "VLAN " + detail;
    case "X13": return "from " + parts[0] + " to " + parts[1];
    case "X15": return detail === "0" ? "" : "rule " + detail;
    case "X16": return parts[0] + ", there would be " + parts[1] + ", the limit is " + parts[2];
    default: return detail;
  }
}

/** A refusal, or what else came in the place of an answer, as a sentence. */
export function sentence(reply) {
  if (reply.lost) return "No reply came from the registry.";
  const rule = words.rules[reply.rule];
  if (!rule) return WEB_SERVER[reply.status] ?? "The registry doesn't answer (status " + reply.status + ").";
  const detail = detailWords(reply.rule, reply.detail);
  return capital(rule.when) + (detail ? ": " + detail : "") + ". (" + reply.rule + ")";
}

/**
 * A refusal of an edit, as a sentence. Where the edit was sent before, and the reply doesn't tell what became of that, it says so: the key may have gone
 * with the edit itself (X0, X1), or the number is no longer kept (X3).
 */
export function refusalWords(edit, reply) {
  const open = edit.tries > 1 && ["X0", "X1", "X3"].includes(reply.rule);
  if (open) return sentence(reply) + " It isn't known whether an earlier try made the edit: look at what it is about.";
  return sentence(reply) + (reply.rule === "X3" ? " Somebody has used greater numbers with this account: set this computer's clock right, or use a key of another account." : "");
}

/** What a kind of field has to be, in words. */
export function kindWords(kind) {
  const is = words.kinds[kind.replace("?", "")];
  return is ? "A " + kind.replace("?", "") + " has to be " + is + "." : "This isn't of its form.";
}

/** The fields whose value names a row of a kind, as the detail of X4 and X14 does. */
function naming(form, kind) {
  return form.fields.filter((field) => field.names === kind);
}

function withName(form, ...names) {
  return form.fields.filter((field) => names.includes(field.name));
}

/** Fields for an address or a prefix in which something stands. */
function filledAddresses(form, values) {
  return withName(form, "address", "blackhole", "v4", "v6").filter((field) => values[field.name]);
}

function ofOtherFamily(form, values, family) {
  const wrong = filledAddresses(form, values).filter((field) => {
    const address = parseAddress(String(values[field.name]).split("/")[0]);
    return address && String(address.family) !== family && (!field.family || field.family === family);
  });
  return wrong.length > 0 ? wrong : withName(form, "vlan", "address");
}

/** The field that a pointer into the body leads to (RFC 6901). */
function pointedAt(form, pointer) {
  const parts = pointer.split("/").slice(1);
  if (parts[0] === "line" || parts[0] === "lines") return form.fields.filter((field) => field.kind === "lines");
  if (/^\d+$/.test(parts[0] ?? "")) return form.fields.filter((field) => field.kind === "rules");
  return withName(form, parts[0]);
}

/** The fields of a form that a refusal is about; none where it is about the form as a whole. `values` is what was sent. */
export function fieldsOf(form, reply, values) {
  const { rule, detail } = reply;
  switch (rule) {
    case "path": return form.fields.filter((field) => field.path);
    case "body": return pointedAt(form, detail);
    case "X4": return naming(form, detail.split(" ")[0]);
    case "X5": return withName(form, detail);
    case "X6": return withName(form, "asn");
    case "X7": return ofOtherFamily(form, values, detail);
    case "X8": return withName(form, "address", "blackhole").filter((field) => values[field.name]);
    case "X9": return detail.startsWith("key ") ? withName(form, "secret") : filledAddresses(form, values);
    case "X10": return withName(form, "port");
    case "X11": return detail === String(values.number ?? values.handle) ? withName(form, "number", "handle") : withName(form, "asn");
    case "X12": return filledAddresses(form, values);
    case "X13": return withName(form, "to", "member");
    case "X14": return form.fields.filter((field) => (form.method === "DELETE" ? field.row : field.name === "to"));
    case "X15": return form.fields.filter((field) => field.kind === "rules" || (field.bounds && !field.bounds(values)));
    case "X16": return form.fields.filter((field) => field.kind === "lines" || field.kind === "rules");
    default: return [];
  }
}

/** What is said at a field. A value that isn't of its form is told what it has to be. */
export function fieldWords(field, reply) {
  if (reply.rule !== "body") return sentence(reply) + (reply.rule === "X15" && field.hint ? " " + field.hint : "");
  const parts = reply.detail.split("/").slice(1);
  if (parts[0] === "line") return "Line " + parts[1] + " isn't of its form. (body)";
  if (parts[0] === "lines") return "There are " + parts[1] + " items, more than the registry takes. (body)";
  return kindWords(field.kind ?? "text") + " (body)";
}
