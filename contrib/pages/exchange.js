// The members of the exchange, as its member export has them (IX-F Member Export 1.0). It needs no key.
import { element, fill, find, grouped, table, tableRow } from "./elements.js";
import { frame, readExport } from "./frame.js";

const HEADS = ["AS number", "Member", "Ports", "Addresses"];

/** How many rows are made at a time; further ones are made when they come into view. */
const CHUNK = 40;

/** A speed in words; the export has Mbit/s. */
function speedText(speed) {
  if (speed >= 1000000) return speed / 1000000 + " Tbit/s";
  return speed >= 1000 ? speed / 1000 + " Gbit/s" : speed + " Mbit/s";
}

function prefixText(network) {
  return network ? network.prefix + "/" + network.mask_length : "\u2013";
}

/** What is shown of a member, and the text in which a search looks. */
function shownMember(member, switches, vlans) {
  const ports = [];
  const addresses = [];
  for (const connection of member.connection_list) {
    for (const port of connection.if_list) ports.push(speedText(port.if_speed) + " at " + (switches.get(port.switch_id) ?? port.switch_id));
    for (const at of connection.vlan_list) {
      for (const address of [at.ipv4, at.ipv6]) {
        if (address) addresses.push({ text: address.address, vlan: vlans.get(at.vlan_id) ?? String(at.vlan_id), served: address.routeserver });
      }
    }
  }
  const asn = "AS" + member.asnum;
  const searched = [asn, member.name, ...ports, ...addresses.flatMap((it) => [it.text, it.vlan])].join(" ").toLowerCase();
  return { asn, name: member.name, ports, addresses, searched };
}

function listOf(items) {
  return items.length === 0 ? "\u2013" : element("ul", {}, ...items.map((item) => element("li", {}, item)));
}

function addressItem(address) {
  return element("span", {}, element("code", {}, address.text), " on " + address.vlan,
    address.served ? element("span", { class: "tag" }, "route servers") : null);
}

function memberRow(member) {
  return tableRow(HEADS, [member.asn, member.name, listOf(member.ports), listOf(member.addresses.map(addressItem))]);
}

/** The members' table, which makes its rows as they come into view. */
class Members {
  constructor(members) {
    this.members = members;
    this.found = members;
    this.more = find("more");
    this.more.addEventListener("click", () => this.append());
    this.observer = new IntersectionObserver((seen) => {
      if (seen.some((entry) => entry.isIntersecting)) this.append();
    }, { rootMargin: "600px" });
    find("search").addEventListener("input", () => this.search());
    this.search();
  }

  search() {
    const wanted = find("search").value.toLowerCase().split(/\s+/);
    this.found = this.members.filter((member) => wanted.every((word) => member.searched.includes(word)));
    this.shown = 0;
    fill(find("members"));
    this.append();
    fill(find("count"), grouped(this.found.length) + " of " + grouped(this.members.length) + " members");
  }

  /** Makes further rows. The button below them is observed anew, since it may still be in view. */
  append() {
    const next = this.found.slice(this.shown, this.shown + CHUNK);
    find("members").append(...next.map(memberRow));
    this.shown += next.length;
    this.more.hidden = this.shown >= this.found.length;
    this.observer.unobserve(this.more);
    this.observer.observe(this.more);
  }
}

function showExchange(exchange, time, members) {
  document.title = exchange.shortname + " - members";
  fill(find("title"), exchange.shortname || "Members");
  const ports = members.flatMap((member) => member.connection_list.flatMap((it) => it.if_list));
  const capacity = ports.reduce((sum, port) => sum + port.if_speed, 0);
  const facts = [["Members", grouped(members.length)], ["Ports", grouped(ports.length)], ["Capacity", speedText(capacity)], ["As of", time.replace("T", " ").replace("Z", " UTC")]];
  fill(find("facts"), ...facts.map(([name, value]) => element("div", {}, element("dt", {}, name), element("dd", {}, value))));
  fill(find("vlans"), table("VLANs", ["Number", "Name", "IPv4", "IPv6"], exchange.vlan.map((it) => [String(it.id), it.name, prefixText(it.ipv4), prefixText(it.ipv6)])),
    table("Switches", ["Number", "Name"], exchange.switch.map((it) => [String(it.id), it.name])));
}

async function start() {
  const found = await readExport(find("status"));
  if (!found) return;
  const exchange = found.ixp_list[0];
  showExchange(exchange, found.timestamp, found.member_list);
  const names = (rows) => new Map(rows.map((row) => [row.id, row.name]));
  const [switches, vlans] = [names(exchange.switch), names(exchange.vlan)];
  new Members(found.member_list.map((member) => shownMember(member, switches, vlans)));
  find("exchange").hidden = false;
}

frame(() => {});
start();
