// Which interface or route server has which address: what the staff's keys may ask of VLANs, with the members' names of the member export.
import { element, fill, find } from "./elements.js";
import { ask, isStaff } from "./registry.js";

/** So many VLANs are asked at most: each is a question for each family. */
const MOST_VLANS = 12;

/** The lines of a VLAN's use: who has an address, and the least free address or null. */
export function parseUse(text) {
  const taken = [];
  let free = null;
  for (const line of text.split("\n").filter((it) => it !== "")) {
    const [first, second, third] = line.split(" ");
    if (first === "free") free = second === "none" ? null : second;
    else taken.push({ address: first, what: second, name: third });
  }
  return { taken, free };
}

/** The members of an export by their addresses. */
export function membersByAddress(exported) {
  const found = new Map();
  for (const member of exported.member_list) {
    for (const at of member.connection_list.flatMap((connection) => connection.vlan_list)) {
      for (const address of [at.ipv4, at.ipv6]) {
        if (address) found.set(address.address, member);
      }
    }
  }
  return found;
}

/** The interfaces and the route servers of the first VLANs, as far as the key may ask. */
export async function readDirectory(exported) {
  const directory = { interfaces: new Map(), routers: new Set() };
  if (!isStaff()) return directory;
  const members = membersByAddress(exported);
  for (const vlan of exported.ixp_list[0].vlan.slice(0, MOST_VLANS)) {
    for (const family of ["4", "6"].filter((it) => vlan["ipv" + it])) {
      const reply = await ask("/vlans/" + vlan.id + "/use/" + family);
      if (!reply.ok) return directory;
      for (const { address, what, name } of parseUse(reply.text).taken) {
        if (what === "router") directory.routers.add(name);
        if (what === "interface") addInterface(directory, name, address, members.get(address));
      }
    }
  }
  return directory;
}

function addInterface(directory, number, address, member) {
  const known = directory.interfaces.get(number) ?? { addresses: [], member };
  known.addresses.push(address);
  directory.interfaces.set(number, known);
}

/** An interface in words: its member and its addresses. */
export function interfaceWords(directory, number) {
  const known = directory.interfaces.get(number);
  if (!known) return "";
  const member = known.member ? known.member.name + ", AS" + known.member.asnum : "a member that isn't connected";
  return member + ", " + known.addresses.join(", ");
}

/** Offers the known route servers, and the interfaces where the page has a place for them, at the inputs that ask for one. */
export function offer(directory) {
  fill(find("routers"), ...[...directory.routers].map((handle) => element("option", { value: handle })));
  const numbers = [...directory.interfaces.keys()];
  if (find("interfaces")) fill(find("interfaces"), ...numbers.map((number) => element("option", { value: number }, interfaceWords(directory, number))));
}
