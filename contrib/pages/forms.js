// The 26 edits as forms. A field stands in the path or in the body; `names` is the kind of row that its value names, `row` marks the row that the
// edit is about, `bounds` says whether a value is within its bounds (X15).
import { parsePrefix } from "./addresses.js";

const FAMILIES = [["4", "IPv4"], ["6", "IPv6"]];
const NAME = { name: "name", label: "Name", hint: "1 to 128 bytes." };

function least(name, from, to = 4294967295) {
  return (values) => Number(values[name]) >= from && Number(values[name]) <= to;
}

function newNumber(of) {
  return { name: "number", label: "Number of the new " + of, kind: "number", hint: "From 1 on.", bounds: least("number", 1) };
}

function inPath(name, label, more = {}) {
  return { name, label, kind: "number", path: true, names: name, row: true, ...more };
}

function named(name, label, more = {}) {
  return { name, label, kind: "number", names: name, ...more };
}

function handle(more = {}) {
  return { name: "handle", label: "Handle", kind: "handle", names: "router", hint: "A lower-case letter, then letters a to z, digits, _ or -; at most 32.", list: "routers", ...more };
}

function hasLength(name, from, to) {
  return (values) => {
    const prefix = parsePrefix(values[name] ?? "");
    return prefix === null || (prefix.length >= from && prefix.length <= to);
  };
}

const MEMBER = inPath("member", "Number of the member");
const FAMILY = { name: "family", label: "Family", path: true, options: FAMILIES };
const SETTINGS = [
  { name: "asn", label: "AS number", kind: "number" },
  { name: "id", label: "BGP identifier", kind: "address", hint: "An IPv4 address, most often the server's own." },
  { name: "low", label: "Least length of a prefix", kind: "number", hint: "At most the greatest length.", bounds: (values) => Number(values.low) <= Number(values.high) },
  { name: "high", label: "Greatest length of a prefix", kind: "number", hint: "At most 32 for IPv4, 128 for IPv6.",
    bounds: (values) => Number(values.high) <= (String(values.family) === "4" ? 32 : 128) && Number(values.low) <= Number(values.high) },
  { name: "rpki", label: "ROAs are asked", kind: "flag" },
  { name: "blackhole", label: "Blackhole address", kind: "address?", hint: "May be empty. A free address of the VLAN; none for AS 65535.", bounds: (values) => !values.blackhole || Number(values.asn) !== 65535 },
  { name: "max_comms", label: "Bound on communities", kind: "number", value: "0", hint: "0 is no bound; at most 1000.", bounds: least("max_comms", 0, 1000) },
];

const LISTS = [["bogons", "Bogons"], ["bogon_as", "Bogon AS numbers"], ["transit", "Transit-free networks"], ["roas", "ROAs"]];

/** Groups of forms, in the order in which an exchange is filled. */
export const groups = [
  ["Members", [
    { id: "add-member", title: "Add a member", method: "POST", path: "/members",
      fields: [newNumber("member"), { name: "asn", label: "AS number", kind: "number" }, NAME] },
    { id: "rename-member", title: "Rename a member", method: "PUT", path: "/members/{member}/name", fields: [MEMBER, NAME] },
    { id: "move-status", title: "Change a member's status", method: "PUT", path: "/members/{member}/status",
      fields: [MEMBER, { name: "to", label: "Status", options: [["noted", "noted"], ["connected", "connected"], ["suspended", "suspended"], ["left", "left"]] }] },
    { id: "set-macro", title: "Set a member's AS-SET", method: "PUT", path: "/members/{member}/macro",
      fields: [MEMBER, { name: "macro", label: "AS-SET or AS", hint: "Up to 64 letters, digits, :, _ or -; may be empty." }] },
  ]],
  ["Contacts and rules", [
    { id: "put-contact", title: "Add or change a contact", method: "PUT", path: "/members/{member}/contacts/{place}",
      fields: [inPath("member", "Number of the member", { row: false }), { name: "place", label: "Place", kind: "number", path: true, names: "contact", hint: "From 1 on.", bounds: least("place", 1) },
        NAME, { name: "mail", label: "Mail address", hint: "Up to 128 bytes; may be empty." }, { name: "role", label: "Role", hint: "Up to 128 bytes; may be empty." }] },
    { id: "drop-contact", title: "Delete a contact", method: "DELETE", path: "/members/{member}/contacts/{place}",
      fields: [inPath("member", "Number of the member", { row: false }), inPath("place", "Place", { names: "contact" })] },
    { id: "set-rules", title: "Replace a member's rules", method: "PUT", path: "/members/{member}/rules",
      fields: [MEMBER, { name: "rules", label: "Rules", kind: "rules" }] },
  ]],
  ["API keys", [
    { id: "add-key", title: "Add an API key", method: "POST", path: "/keys",
      fields: [newNumber("key"), { name: "secret", label: "Secret", kind: "secret", hint: "16 to 64 letters and digits." },
        { name: "kind", label: "Kind", options: [["member", "a member's"], ["staff", "the staff's"]] },
        { name: "owner", label: "Owner", kind: "number", names: "member", hint: "The member's number, or a staff account from 1 to 16.",
          bounds: (values) => values.kind !== "staff" || least("owner", 1, 16)(values) }] },
    { id: "drop-key", title: "Delete an API key", method: "DELETE", path: "/keys/{key}", fields: [inPath("key", "Number of the key")] },
  ]],
  ["Switches and ports", [
    { id: "add-switch", title: "Add a switch", method: "POST", path: "/switches", fields: [newNumber("switch"), NAME] },
    { id: "drop-switch", title: "Delete a switch", method: "DELETE", path: "/switches/{switch}", fields: [inPath("switch", "Number of the switch")] },
    { id: "add-port", title: "Add a port", method: "POST", path: "/ports",
      fields: [newNumber("port"), named("switch", "Number of the switch"), NAME,
        { name: "speed", label: "Speed in Mbit/s", kind: "number", hint: "From 1 on; 10 Gbit/s is 10000.", bounds: least("speed", 1) }] },
    { id: "assign-port", title: "Give a port to a member", method: "PUT", path: "/ports/{port}/member", fields: [inPath("port", "Number of the port"), named("member", "Number of the member")] },
    { id: "free-port", title: "Take a port from its member", method: "DELETE", path: "/ports/{port}/member", fields: [inPath("port", "Number of the port")] },
    { id: "drop-port", title: "Delete a port", method: "DELETE", path: "/ports/{port}", fields: [inPath("port", "Number of the port")] },
  ]],
  ["VLANs and interfaces", [
    { id: "add-vlan", title: "Add a VLAN", method: "POST", path: "/vlans",
      fields: [newNumber("VLAN"), NAME, { name: "tag", label: "Tag", kind: "number", hint: "1 to 4094.", bounds: least("tag", 1, 4094) },
        { name: "v4", label: "IPv4 prefix", kind: "prefix?", family: "4", hint: "8 to 30 bits; may be empty.", bounds: hasLength("v4", 8, 30) },
        { name: "v6", label: "IPv6 prefix", kind: "prefix?", family: "6", hint: "32 to 126 bits; may be empty.", bounds: hasLength("v6", 32, 126) }] },
    { id: "drop-vlan", title: "Delete a VLAN", method: "DELETE", path: "/vlans/{vlan}", fields: [inPath("vlan", "Number of the VLAN")] },
    { id: "add-interface", title: "Add an interface", method: "POST", path: "/interfaces",
      fields: [newNumber("interface"), named("member", "Number of the member"), named("port", "Number of the port"), named("vlan", "Number of the VLAN")] },
    { id: "set-address", title: "Set an interface's address", method: "PUT", path: "/interfaces/{interface}/{4 or 6}",
      fields: [inPath("interface", "Number of the interface"), FAMILY, { name: "address", label: "Address", kind: "address", hint: "The route server page shows which addresses are free." },
        { name: "secret", label: "Password of the session", kind: "secret", hint: "Up to 64 letters, digits, ., _, : or /; may be empty." },
        { name: "max_prefix", label: "Most prefixes", kind: "number", value: "0", hint: "0 is no bound." },
        { name: "rs", label: "Sessions with the route servers", kind: "flag", on: true }, { name: "irr", label: "Held to the member's lists", kind: "flag", on: true },
        { name: "more", label: "More specific prefixes are allowed", kind: "flag" }] },
    { id: "drop-interface", title: "Delete an interface", method: "DELETE", path: "/interfaces/{interface}", fields: [inPath("interface", "Number of the interface")] },
  ]],
  ["Route servers", [
    { id: "add-router", title: "Add a route server", method: "POST", path: "/routers",
      fields: [handle(), named("vlan", "Number of the VLAN"), { name: "family", label: "Family", kind: "number", options: FAMILIES }, { name: "address", label: "Address", kind: "address" }, ...SETTINGS] },
    { id: "set-router", title: "Change a route server", method: "PUT", path: "/routers/{handle}", fields: [handle({ path: true, row: true }), ...SETTINGS] },
    { id: "drop-router", title: "Delete a route server", method: "DELETE", path: "/routers/{handle}", fields: [handle({ path: true, row: true })] },
  ]],
  ["Lists", [
    { id: "put-irr", title: "Replace a member's prefixes", method: "PUT", path: "/members/{member}/irr/{4 or 6}",
      fields: [MEMBER, FAMILY, { name: "lines", label: "Prefixes", kind: "lines", hint: "A prefix a line. An empty list takes the member's list away." }] },
    { id: "put-origins", title: "Replace a member's origins", method: "PUT", path: "/members/{member}/origins/{4 or 6}",
      fields: [MEMBER, FAMILY, { name: "lines", label: "Origins", kind: "lines", hint: "An AS number a line, with or without AS." }] },
    { id: "put-public", title: "Replace a list of all route servers", method: "PUT", path: "/public/{list}",
      fields: [{ name: "list", label: "List", path: true, options: LISTS },
        { name: "lines", label: "Lines", kind: "lines", hint: "Bogons: 10.0.0.0/8{8,32}. Bogon AS numbers: a first and a last one. Transit-free networks: an AS number. ROAs: AS number, prefix and max length with commas." }] },
  ]],
];
