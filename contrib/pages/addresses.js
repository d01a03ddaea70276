// Addresses and prefixes of both families, as numbers.
const WIDTHS = { 4: 32n, 6: 128n };

function parseV4(text) {
  const parts = text.split(".");
  if (parts.length !== 4 || !parts.every((part) => /^(0|[1-9]\d{0,2})$/.test(part) && Number(part) < 256)) return null;
  return parts.reduce((value, part) => (value << 8n) + BigInt(part), 0n);
}

/** The groups of a part of an IPv6 address, or null. The last one may be an IPv4 address. */
function groupsOf(text) {
  if (text === "") return [];
  const groups = [];
  for (const [at, part] of text.split(":").entries()) {
    const tail = part.includes(".") && at === text.split(":").length - 1 ? parseV4(part) : null;
    if (tail !== null) groups.push(tail >> 16n, tail & 0xffffn);
    else if (/^[0-9a-fA-F]{1,4}$/.test(part)) groups.push(BigInt("0x" + part));
    else return null;
  }
  return groups;
}

function parseV6(text) {
  const halves = text.split("::");
  if (halves.length > 2) return null;
  const [front, back] = [groupsOf(halves[0]), groupsOf(halves[1] ?? "")];
  if (front === null || back === null) return null;
  const missing = 8 - front.length - back.length;
  if (halves.length === 2 ? missing < 1 : missing !== 0) return null;
  return [...front, ...Array(missing).fill(0n), ...back].reduce((value, group) => (value << 16n) + group, 0n);
}

/** An address as its family and value, or null (RFC 4291 section 2.2). */
export function parseAddress(text) {
  const family = text.includes(":") ? 6 : 4;
  const value = family === 6 ? parseV6(text) : parseV4(text);
  return value === null ? null : { family, value };
}

/** A prefix as its family, value and length, or null where it isn't one or has host bits. */
export function parsePrefix(text) {
  const found = /^([^/]+)\/(0|[1-9]\d{0,2})$/.exec(text);
  const address = found && parseAddress(found[1]);
  if (!address) return null;
  const width = WIDTHS[address.family];
  const length = BigInt(found[2]);
  if (length > width || (address.value & ((1n << (width - length)) - 1n)) !== 0n) return null;
  return { ...address, length: Number(length) };
}

/** Whether a prefix covers another one: the same, or more specific. */
export function covers(outer, inner) {
  if (outer.family !== inner.family || outer.length > inner.length) return false;
  const shift = WIDTHS[outer.family] - BigInt(outer.length);
  return outer.value >> shift === inner.value >> shift;
}

/** How many addresses a prefix has. */
export function sizeOf(prefix) {
  return 1n << (WIDTHS[prefix.family] - BigInt(prefix.length));
}

function textV4(value) {
  return [24n, 16n, 8n, 0n].map((shift) => String((value >> shift) & 255n)).join(".");
}

/** Where the longest run of zero groups begins and how long it is; the first of several (RFC 5952 section 4.2). */
function longestZeros(groups) {
  let best = [0, 0];
  for (let start = 0; start < 8; start += 1) {
    let end = start;
    while (end < 8 && groups[end] === 0n) end += 1;
    if (end - start > best[1]) best = [start, end - start];
  }
  return best;
}

function textV6(value) {
  const groups = [112n, 96n, 80n, 64n, 48n, 32n, 16n, 0n].map((shift) => (value >> shift) & 0xffffn);
  const [start, length] = longestZeros(groups);
  const words = groups.map((group) => group.toString(16));
  if (length < 2) return words.join(":");
  return words.slice(0, start).join(":") + "::" + words.slice(start + length).join(":");
}

/** An address in the spelling of RFC 5952. */
export function addressText(family, value) {
  return family === 4 ? textV4(value) : textV6(value);
}
