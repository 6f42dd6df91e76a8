// The page's arithmetic beside the stored outputs of the reference, and beside what the reference says of plain and of broken generators.
import assert from "node:assert/strict";
import { execFileSync } from "node:child_process";
import { existsSync, readFileSync } from "node:fs";
import { runInThisContext } from "node:vm";

const top = new URL("../../", import.meta.url);
const read = (path) => readFileSync(new URL(path, top), "utf8");
const lines = (path) => read(path).trimEnd().split("\n");
const numbers = (text) => text.split(" ").filter((word) => word !== "").map(Number);

const html = read("docs/explore/index.html");
const [, script] = html.match(/<script id="arithmetic">(.*?)<\/script>/s);
const A = runInThisContext(`${script}\nArithmetic`);
const counts = {};

function count(what) {
  counts[what] = (counts[what] ?? 0) + 1;
}

function same(what, seen, expected, where) {
  count(what);
  assert.deepEqual(seen, expected, `${what}: ${where}`);
}

// ---------- the field of 256 elements

function checkTables() {
  const { powers, logs } = A.fieldOf(0);
  const bytes = A.range(255).map((i) => i + 1);
  same("tables", [...powers, ...bytes.map((a) => logs[a])], lines("crates/tables/stdout").map(Number), "powers and logarithms");
  const [inverses, ...products] = lines("crates/field_tables/stdout");
  same("tables", bytes.map(A.fieldOf(0).inverse), numbers(inverses.replace("inverses ", "")), "inverses");
  for (const line of products) {
    const [, a, row] = line.split(" ");
    same("tables", A.range(256).map((b) => A.fieldOf(0).times(Number(a), b)), [...Buffer.from(row, "hex")], line.slice(0, 10));
  }
}

// ---------- records, sheets and comparisons

function sheet(record) {
  const header = A.readRecord(record);
  if (header.number) return [`refused ${header.number}`];
  const { n, k, d, low, high, shifts, firsts, rows } = A.planOf(header);
  const reads = low === high ? [low] : [low, high];
  return [["plan", n, k, d, ...reads].join(" "), ...rows.map((row, r) => ["row", r, shifts[r], firsts[r], ...row].join(" "))];
}

const ends = ({ least, greatest }) => (least === greatest ? `${least}` : `${least}..${greatest}`);
const costs = (name, { writes, reads }) => `${name} writes ${ends(writes)} reads ${reads.least} ${reads.greatest}`;

// the bits that are moved for a symbol of a lost node, where k is below n: k whole symbols; by traces, b of each other node; and for bytes the
// fewest bits that are worth 255·k, where each node's first is worth 128 and every further one half as much
function rebuild(record, { n, k }) {
  if (k === n) return [];
  const bytes = record[0] === 2;
  const b = bytes && [1, 2, 4].find((b) => n - k >= 2 ** (8 - b));
  const worths = [128, 64, 32, 16, 8, 4, 2, 1].flatMap((worth) => Array(n - 1).fill(worth));
  let owed = 255 * k, least = 0;
  while (owed > 0) owed -= worths[least++];
  return [`rebuild bits ${8 * (record[0] === 3 ? 2 : 1) * k}${b ? ` traces ${b * (n - 1)}` : ""}${bytes ? ` least ${least}` : ""}`];
}

function comparison(record) {
  const header = A.readRecord(record);
  if (header.number) return [`refused ${header.number}`];
  const plan = A.planOf(header), { writes, reads } = A.bound(plan.n, plan.k);
  const plain = A.figures(A.plainRows(plan)), ours = A.figures(plan.rows);
  return [`compare ${plan.n} ${plan.k}`, costs("plain", plain), costs("balanced", ours), `bound writes ${writes} reads ${reads}`, ...rebuild(record, plan)];
}

function checkSheets() {
  const text = read("crates/sheet_cases/stdout");
  for (const [, record, stored] of text.matchAll(/^record ?([\d ]*)\n((?:(?!record|#|$).*\n)+)/gm)) {
    const bytes = numbers(record);
    same("sheets", [...sheet(bytes), ...comparison(bytes)].join("\n"), stored.trimEnd(), record);
  }
}

// the chooser offers every accepted record of kind 1 with p up to 31, and no other
function checkChoices() {
  const primes = A.range(32).filter((p) => p >= 3 && A.isPrime(p));
  const offered = primes.flatMap((p) => A.sizes(p).flatMap((n) => A.roots(p, n).flatMap((root) => A.range(n).map((k) => [p, root, n, k + 1]))));
  const ordered = offered.sort((a, b) => a[0] - b[0] || a[1] - b[1] || a[3] - b[3]).map((record) => record.join(" "));
  const stored = lines("crates/small_plans/stdout");
  same("lists of records", ordered, stored, "small plans");
  for (const line of stored) same("accepted records", A.readRecord([1, ...numbers(line)]).number, 0, line);
}

// ---------- calls

// symbols of two bytes, high byte first, for kind 3
const wide = (record) => record[0] === 3;
const symbols = (record, bytes) => (wide(record) ? A.range(bytes.length / 2).map((i) => bytes[2 * i] * 256 + bytes[2 * i + 1]) : bytes);

// a message stands row after row, shares lane after lane
const messageLane = (buffer, lanes, t) => A.range(buffer.length / lanes).map((r) => buffer[r * lanes + t]);
const shareLane = (buffer, lanes, t) => buffer.slice((t * buffer.length) / lanes, ((t + 1) * buffer.length) / lanes);

const CALLS = {
  plan: /^plan ?([\d ]*): ((?:n|refused) .*)$/,
  encode: /^encode ([\d ]+) lanes (\d+) message ([\d ]*?) room \d+: done([\d ]*)$/,
  update: /^update ([\d ]+) lanes (\d+) symbol (\d+) lane (\d+) old (\d+) new (\d+) shares ([\d ]*?): altered (\d+) shares([\d ]*)$/,
  recover: /^recover ([\d ]+) lanes (\d+) nodes ([\d ]*?) shares ([\d ]*?) room \d+: done([\d ]*)$/,
  rebuild: /^rebuild ([\d ]+) lanes (\d+) nodes ([\d ]*?) shares ([\d ]*?) target (\d+) room \d+: done([\d ]*)$/,
};

const CHECKS = {
  plan(line, record, answer) {
    const header = A.readRecord(numbers(record));
    if (header.number) return same("plans", `refused ${header.number}, all places 0`, answer, line);
    if (answer.includes("bytes sum") || wide(numbers(record))) return;
    const { n, k, d, low, high, shifts, firsts, base } = A.planOf(header);
    const words = `n ${n} k ${k} d ${d} reads ${low} ${high} shifts ${shifts.join(" ")} then 0 firsts ${firsts.join(" ")} then 0 base ${base.join(" ")} then 0`;
    same("plans", words, answer, line);
  },
  encode(line, record, lanes, message, shares) {
    const [plan, given, stored] = stores(record, message, shares);
    for (const t of A.range(Number(lanes))) same("encodings", A.encode(plan.field, plan.rows, messageLane(given, lanes, t)), shareLane(stored, lanes, t), line);
  },
  update(line, record, lanes, symbol, lane, old, now, before, count, after) {
    const [plan, given, stored] = stores(record, before, after);
    const changed = A.update(plan.field, plan.rows, shareLane(given, lanes, lane), symbol, Number(old), Number(now));
    same("updates", changed, shareLane(stored, lanes, Number(lane)), line);
    same("updates", shareLane(given, lanes, lane).filter((x, j) => x !== changed[j]).length, Number(count), line);
  },
  recover(line, record, lanes, nodes, shares, message) {
    const [plan, given, stored] = stores(record, shares, message);
    for (const t of A.range(Number(lanes))) same("recoveries", A.recover(plan.field, plan.rows, numbers(nodes), shareLane(given, lanes, t)), messageLane(stored, lanes, t), line);
  },
  rebuild(line, record, lanes, nodes, shares, target, share) {
    const [plan, given, stored] = stores(record, shares, share);
    for (const t of A.range(Number(lanes))) {
      const message = A.recover(plan.field, plan.rows, numbers(nodes), shareLane(given, lanes, t));
      same("rebuilt shares", A.holds(plan.field, plan.rows, message, Number(target)), stored[t], line);
    }
  },
};

// the plan of a record, and buffers as symbols
function stores(record, ...buffers) {
  const bytes = numbers(record);
  return [A.planOf(A.readRecord(bytes)), ...buffers.map((buffer) => symbols(bytes, numbers(buffer)))];
}

function checkCalls() {
  for (const line of lines("crates/cases/stdout"))
    for (const [name, form] of Object.entries(CALLS)) {
      const found = line.match(form);
      if (found) CHECKS[name](line, ...found.slice(1));
    }
}

// ---------- plain and broken generators, by the reference

function checkReference() {
  const { plain, broken } = JSON.parse(execFileSync("python3", [new URL("reference.py", import.meta.url).pathname], { encoding: "utf8" }));
  for (const { record, rows } of plain) same("plain generators", A.plainRows(A.planOf(A.readRecord(record))), rows, record.join(" "));
  for (const { p, rows, failing } of broken) {
    const field = A.fieldOf(p);
    same("broken generators", A.failingSets(field, rows), failing, JSON.stringify(rows));
    for (const nodes of failing) checkTwins(field, rows, nodes);
  }
}

// the two messages that are shown are different, and the nodes hold the same for both
function checkTwins(field, rows, nodes) {
  const message = rows.map((_, r) => (r + 1) % field.size), other = A.twin(field, rows, nodes, message);
  const held = (m) => nodes.map((j) => A.holds(field, rows, m, j));
  assert.notDeepEqual(message, other);
  same("pairs of messages", held(message), held(other), nodes.join(" "));
}

// ---------- counting sets

function checkSets() {
  const written = read("docs/TRAINING.md").match(/there are ([\d,]+) sets, about/)[1];
  same("numbers of sets", A.binomial(255, 120), BigInt(written.replaceAll(",", "")), "255 and 120");
  for (const n of A.range(13)) for (const k of A.range(n + 1)) same("numbers of sets", A.binomial(n, k), BigInt([...A.nodeSets(n, k)].length), `${n} and ${k}`);
  same("chances", Number(A.missChance(20, 1, 12).toFixed(9)), 8 / 20, "a dozen of 20");
  same("chances", A.missChance(20, 10, 12), 0, "ten bad ones");
  const set = A.randomSet(255, 120, Math.random);
  same("random sets", [new Set(set).size, set.every((j) => j >= 0 && j < 255)], [120, true], set.join(" "));
}

// ---------- what the page cites is there

function checkCitations() {
  for (const [, path, name] of html.matchAll(/<code data-in="([^"]+)">([^<]+)<\/code>/g)) {
    const cited = existsSync(new URL(path, top)) ? read(path) : "";
    same("citations", new RegExp(`(?<![\\w-])${name}(?![\\w-])`).test(cited), true, `${name} in ${path}`);
  }
  assert.equal(/\b(?:src|href)="(?:https?:)?\/\//.test(html), false, "the page needs no network");
}

for (const check of [checkTables, checkSheets, checkChoices, checkCalls, checkReference, checkSets, checkCitations]) check();
const kinds = [
  "tables", "sheets", "lists of records", "accepted records", "plans", "encodings", "updates", "recoveries", "rebuilt shares",
  "plain generators", "broken generators", "pairs of messages", "numbers of sets", "chances", "random sets", "citations",
];
assert.deepEqual(Object.keys(counts).sort(), [...kinds].sort(), "every kind of case was met");
console.log(`the page's arithmetic: ${kinds.map((kind) => `${counts[kind]} ${kind}`).join(", ")}`);
