// The words of refusals, reasons and tags. Made by make-words from docs/API.md and docs/POLICY.md: change those, and make it anew.
export const words = {
 "rules": {
  "path": {
   "status": "404",
   "when": "there is no such path, or the interface has no session with the router",
   "detail": "empty"
  },
  "method": {
   "status": "405",
   "when": "the path hasn't the method",
   "detail": "empty"
  },
  "body": {
   "status": "400",
   "when": "the body, the number or seen isn't of its form",
   "detail": "a pointer to what is wrong, /line/<n>, /lines/<n>, /number, /seen, or empty"
  },
  "head": {
   "status": "400, 413, 431, 501",
   "when": "the message is no request (RFC 9112), its body is longer than 64 MiB, its head is too long, or it has a Transfer-Encoding",
   "detail": "empty; the link ends"
  },
  "X0": {
   "status": "401",
   "when": "no API key has the secret",
   "detail": "empty"
  },
  "X1": {
   "status": "403",
   "when": "the key's owner hasn't the right; with explain and the looking glass, the interface isn't its own, or isn't there",
   "detail": "staff or member <number>"
  },
  "X2": {
   "status": "409",
   "when": "the number is kept for another kind of edit or another subject",
   "detail": "the kind and the subject, as AddMember 5"
  },
  "X3": {
   "status": "409",
   "when": "the number is below those that are kept",
   "detail": "the least number that isn't; it may have been used"
  },
  "X4": {
   "status": "404",
   "when": "a row that is named isn't there",
   "detail": "kind and key, as member 5 or contact 1 2"
  },
  "X5": {
   "status": "422",
   "when": "a text has another alphabet or length",
   "detail": "the field"
  },
  "X6": {
   "status": "422",
   "when": "the AS number is reserved, or a member and a router would share one",
   "detail": "the number"
  },
  "X7": {
   "status": "422",
   "when": "an address, a prefix or a route is of the wrong family, or the VLAN has none of it",
   "detail": "the family that is wanted"
  },
  "X8": {
   "status": "422",
   "when": "an address lies outside the VLAN's prefix, or is its first or last one",
   "detail": "the VLAN"
  },
  "X9": {
   "status": "409",
   "when": "somebody has the address or the secret",
   "detail": "kind and key"
  },
  "X10": {
   "status": "409",
   "when": "the port belongs to another member, or to none",
   "detail": "that member, or none"
  },
  "X11": {
   "status": "409",
   "when": "a row with the key, or a member with the AS number, is there",
   "detail": "the key"
  },
  "X12": {
   "status": "409",
   "when": "the prefix overlaps with one of a VLAN",
   "detail": "that VLAN"
  },
  "X13": {
   "status": "409",
   "when": "no member goes from one status to the other",
   "detail": "both, as left connected"
  },
  "X14": {
   "status": "409",
   "when": "a row still names the one that is to go",
   "detail": "kind and key"
  },
  "X15": {
   "status": "422",
   "when": "a rule's action or a number is out of its bounds",
   "detail": "the rule's place from 1, else 0"
  },
  "X16": {
   "status": "413",
   "when": "there would be more than the limit",
   "detail": "what, how many there would be, and the limit, as bogon-as 10001 10000"
  },
  "Y1": {
   "status": "503",
   "when": "the store failed, and the edit wasn't made; the server goes on. After a sync that failed each edit gets this until the program is started again, and the edit may be found then; a resend with its number is a repeat",
   "detail": "empty"
  },
  "Y2": {
   "status": "400",
   "when": "no request with the number that was seen is known",
   "detail": "the number"
  },
  "Y3": {
   "status": "404",
   "when": "there is no such router",
   "detail": "empty"
  },
  "Y4": {
   "status": "500",
   "when": "the worker's count of its turns isn't the one that is kept for it",
   "detail": "both"
  },
  "Y5": {
   "status": "500",
   "when": "the count of accepted edits, or of the turns of the connection's worker, has come to its end",
   "detail": "the count"
  },
  "Z1": {
   "status": "413",
   "when": "more than 1,000 routes of a session would be held, or routes of more than 16 sessions",
   "detail": "how many there would be, and the limit, as 1001 1000 or 17 16"
  },
  "Z2": {
   "status": "422",
   "when": "a route that is to be held isn't of the router's family",
   "detail": "the place of the first one, counted from 1"
  },
  "Z3": {
   "status": "404",
   "when": "no route of the session is held, or none at that place",
   "detail": "empty"
  },
  "memory": {
   "status": "507",
   "when": "memory ran out",
   "detail": "empty; the link ends"
  }
 },
 "kinds": {
  "number": "0 to 4294967295, in JSON without fraction or exponent",
  "text": "a JSON string; which letters and how many are allowed is tested later (X5)",
  "flag": "true or false",
  "address": "an IPv4 or IPv6 address as a string, in every spelling of RFC 4291",
  "prefix": "an address, / and a length, as a string, without host bits",
  "or null": "the value may be null"
 },
 "edits": [
  {
   "method": "POST",
   "path": "/members",
   "who": [
    "staff"
   ],
   "body": "number, asn, name",
   "refusals": [
    "X5",
    "X6",
    "X11",
    "X15",
    "X16"
   ]
  },
  {
   "method": "PUT",
   "path": "/members/{member}/name",
   "who": [
    "staff"
   ],
   "body": "name",
   "refusals": [
    "X4",
    "X5"
   ]
  },
  {
   "method": "PUT",
   "path": "/members/{member}/status",
   "who": [
    "staff"
   ],
   "body": "to: noted, connected, suspended or left",
   "refusals": [
    "X4",
    "X13",
    "X14",
    "X16"
   ]
  },
  {
   "method": "PUT",
   "path": "/members/{member}/macro",
   "who": [
    "staff",
    "member"
   ],
   "body": "macro",
   "refusals": [
    "X4",
    "X5"
   ]
  },
  {
   "method": "PUT",
   "path": "/members/{member}/contacts/{place}",
   "who": [
    "staff",
    "member"
   ],
   "body": "name, mail, role",
   "refusals": [
    "X4",
    "X5",
    "X15",
    "X16"
   ]
  },
  {
   "method": "DELETE",
   "path": "/members/{member}/contacts/{place}",
   "who": [
    "staff",
    "member"
   ],
   "body": "-",
   "refusals": [
    "X4"
   ]
  },
  {
   "method": "POST",
   "path": "/keys",
   "who": [
    "staff"
   ],
   "body": "number, secret, kind: staff or member, owner: a number",
   "refusals": [
    "X4",
    "X5",
    "X9",
    "X11",
    "X15",
    "X16"
   ]
  },
  {
   "method": "DELETE",
   "path": "/keys/{key}",
   "who": [
    "staff"
   ],
   "body": "-",
   "refusals": [
    "X4"
   ]
  },
  {
   "method": "POST",
   "path": "/switches",
   "who": [
    "staff"
   ],
   "body": "number, name",
   "refusals": [
    "X5",
    "X11",
    "X15",
    "X16"
   ]
  },
  {
   "method": "DELETE",
   "path": "/switches/{switch}",
   "who": [
    "staff"
   ],
   "body": "-",
   "refusals": [
    "X4",
    "X14"
   ]
  },
  {
   "method": "POST",
   "path": "/ports",
   "who": [
    "staff"
   ],
   "body": "number, switch, name, speed (Mbit/s)",
   "refusals": [
    "X4",
    "X5",
    "X11",
    "X15",
    "X16"
   ]
  },
  {
   "method": "PUT",
   "path": "/ports/{port}/member",
   "who": [
    "staff"
   ],
   "body": "member: a number",
   "refusals": [
    "X4",
    "X10"
   ]
  },
  {
   "method": "DELETE",
   "path": "/ports/{port}/member",
   "who": [
    "staff"
   ],
   "body": "-",
   "refusals": [
    "X4",
    "X14"
   ]
  },
  {
   "method": "DELETE",
   "path": "/ports/{port}",
   "who": [
    "staff"
   ],
   "body": "-",
   "refusals": [
    "X4",
    "X14"
   ]
  },
  {
   "method": "POST",
   "path": "/vlans",
   "who": [
    "staff"
   ],
   "body": "number, name, tag, v4 and v6: a prefix or null",
   "refusals": [
    "X5",
    "X7",
    "X11",
    "X12",
    "X15",
    "X16"
   ]
  },
  {
   "method": "DELETE",
   "path": "/vlans/{vlan}",
   "who": [
    "staff"
   ],
   "body": "-",
   "refusals": [
    "X4",
    "X14"
   ]
  },
  {
   "method": "POST",
   "path": "/interfaces",
   "who": [
    "staff"
   ],
   "body": "number, member, port, vlan",
   "refusals": [
    "X4",
    "X10",
    "X11",
    "X13",
    "X15",
    "X16"
   ]
  },
  {
   "method": "PUT",
   "path": "/interfaces/{interface}/{4 or 6}",
   "who": [
    "staff"
   ],
   "body": "address, secret, max_prefix, rs, irr, more (flags)",
   "refusals": [
    "X4",
    "X5",
    "X7",
    "X8",
    "X9",
    "X16"
   ]
  },
  {
   "method": "DELETE",
   "path": "/interfaces/{interface}",
   "who": [
    "staff"
   ],
   "body": "-",
   "refusals": [
    "X4"
   ]
  },
  {
   "method": "POST",
   "path": "/routers",
   "who": [
    "staff"
   ],
   "body": "handle, vlan, family: 4 or 6, address, asn, id: an IPv4 address, low, high, rpki (flag), blackhole: an address or null, max_comms",
   "refusals": [
    "X4",
    "X5",
    "X6",
    "X7",
    "X8",
    "X9",
    "X11",
    "X15",
    "X16"
   ]
  },
  {
   "method": "PUT",
   "path": "/routers/{handle}",
   "who": [
    "staff"
   ],
   "body": "asn, id, low, high, rpki, blackhole, max_comms, as above",
   "refusals": [
    "X4",
    "X6",
    "X7",
    "X8",
    "X9",
    "X15",
    "X16"
   ]
  },
  {
   "method": "DELETE",
   "path": "/routers/{handle}",
   "who": [
    "staff"
   ],
   "body": "-",
   "refusals": [
    "X4"
   ]
  },
  {
   "method": "PUT",
   "path": "/members/{member}/irr/{4 or 6}",
   "who": [
    "staff"
   ],
   "body": "a prefix a line",
   "refusals": [
    "X4",
    "X16"
   ]
  },
  {
   "method": "PUT",
   "path": "/members/{member}/origins/{4 or 6}",
   "who": [
    "staff"
   ],
   "body": "an AS number a line, with or without AS",
   "refusals": [
    "X4",
    "X16"
   ]
  },
  {
   "method": "PUT",
   "path": "/members/{member}/rules",
   "who": [
    "staff",
    "member"
   ],
   "body": "list of way: advertise or receive, peer: a number or null, prefix: a prefix or null, action: as-is, prepend1, prepend2, prepend3 or stop",
   "refusals": [
    "X4",
    "X15",
    "X16"
   ]
  },
  {
   "method": "PUT",
   "path": "/public/bogons",
   "who": [
    "staff"
   ],
   "body": "a pattern a line, as 10.0.0.0/8{8,32}",
   "refusals": [
    "X15",
    "X16"
   ]
  },
  {
   "method": "PUT",
   "path": "/public/bogon_as",
   "who": [
    "staff"
   ],
   "body": "a first and a last AS number a line, with a blank between them",
   "refusals": [
    "X15",
    "X16"
   ]
  },
  {
   "method": "PUT",
   "path": "/public/transit",
   "who": [
    "staff"
   ],
   "body": "an AS number a line",
   "refusals": [
    "X15",
    "X16"
   ]
  },
  {
   "method": "PUT",
   "path": "/public/roas",
   "who": [
    "staff"
   ],
   "body": "CSV: AS number, prefix, max length or nothing; a first row that begins with ASN is skipped",
   "refusals": [
    "X15",
    "X16"
   ]
  }
 ],
 "reasons": {
  "1": {
   "name": "prefix too long",
   "when": "its prefix is longer than the server takes, and it isn't a blackhole route",
   "option": "high of the router",
   "advice": "Announce the covering prefix. To have traffic to a single address dropped, send a blackhole route, where the server has a blackhole address."
  },
  "2": {
   "name": "prefix too short",
   "when": "its prefix is shorter than the server takes",
   "option": "low of the router",
   "advice": "Announce longer prefixes. A default route is most likely a leak: filter it on the session."
  },
  "3": {
   "name": "bogon",
   "when": "its prefix is a bogon (RFC 7454 section 6.1)",
   "option": "the list of bogons",
   "advice": "Stop announcing it: the prefix is private, reserved or for documentation. If it has been allocated lately, ask the exchange to mend its list."
  },
  "4": {
   "name": "bogon AS number in the path",
   "when": "a bogon AS number is in its path",
   "option": "the list of bogon AS numbers",
   "advice": "Remove private and reserved AS numbers (RFC 6996, RFC 7607) from the path, or have the customer do so who brings them. If the number has been allocated lately, ask the exchange to mend its list."
  },
  "5": {
   "name": "path too long",
   "when": "its AS path has more than 64 numbers",
   "option": "",
   "advice": "Prepend less: each repetition counts. If others prepend, refuse such paths on your own sessions with them."
  },
  "6": {
   "name": "empty path",
   "when": "its AS path is empty",
   "option": "",
   "advice": "Have your router put its AS number into the path, as BGP wants it on each session to another AS."
  },
  "7": {
   "name": "first AS isn't the member's",
   "when": "the first AS of its path isn't the member's",
   "option": "",
   "advice": "Have your router put your own AS number first; one that is set up as a route server, or with another local AS number, doesn't. If your AS number has changed, tell the exchange."
  },
  "8": {
   "name": "foreign next hop",
   "when": "its next hop isn't an address of the server's family that the member has on the VLAN",
   "option": "",
   "advice": "Set the next hop to your own address on this session. If it is the address of another router of yours on this VLAN, ask the exchange to register that."
  },
  "9": {
   "name": "prefix not registered",
   "when": "the member's prefix list doesn't allow its prefix, and it isn't found Valid by RFC 6811; for a blackhole route see below",
   "option": "irr of the address",
   "advice": "Register a route or route6 object (RFC 2622, RFC 4012) for the prefix and its origin under your AS or AS-SET, or make a ROA for it where the server asks ROAs. If it is registered, ask the exchange to take it over."
  },
  "10": {
   "name": "origin not registered",
   "when": "its origin isn't in the member's list of origins of the family",
   "option": "irr of the address",
   "advice": "Put the origin's AS number into your AS-SET (RFC 2622), then ask the exchange to take the list over. If the AS isn't a customer of yours, look for a leak."
  },
  "13": {
   "name": "RPKI Invalid",
   "when": "it is Invalid by RFC 6811, and it isn't a blackhole route",
   "option": "rpki of the router",
   "advice": "Compare origin and length with the ROAs for the prefix. Mend the ROA, its max length included, or have the holder of the prefix mend it; announce the prefix from the origin and with the length that a ROA allows. If it isn't yours or a customer's, stop announcing it."
  },
  "14": {
   "name": "transit-free network in the path",
   "when": "the AS number of a transit-free network is in its path, and the member isn't one of these networks",
   "option": "the list of transit-free networks",
   "advice": "Look for a leak (RFC 7908): routes that you have from an upstream aren't announced to a route server. Filter them out."
  },
  "15": {
   "name": "too many communities",
   "when": "it has more communities, or more large communities, than the server takes",
   "option": "max_comms of the router; 0 is no bound",
   "advice": "Remove communities that aren't for this route server. Communities of two parts and large ones are counted by themselves; the server's own tags aren't counted."
  }
 },
 "tags": {
  "RS:1001:1200": "the next hop is another address of the member's",
  "RS:1001:2": "the member's lists weren't asked (irr isn't set)",
  "RS:1001:1002": "the member's list of origins is empty",
  "RS:1000:3": "ROAs weren't asked: rpki isn't set, or it is a blackhole route",
  "RS:1000:1": "Valid by RFC 6811",
  "RS:1000:2": "Unknown by RFC 6811",
  "RS:1001:1": "the member's prefix list allows the prefix; a Valid route has no such tag, since the list isn't asked",
  "RS:1101:number": "refused, by the table above"
 },
 "steering": {
  "RS:0:PEER": "not sent to this peer",
  "RS:1:PEER": "sent to this peer",
  "RS:0:0": "sent to nobody",
  "RS:1:0": "sent to everybody",
  "0:PEER": "not sent to this peer",
  "RS:PEER": "sent to this peer",
  "0:RS": "sent to nobody",
  "RS:RS": "sent to everybody"
 }
};
