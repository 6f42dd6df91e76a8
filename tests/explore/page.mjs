// page.mjs PROGRAM [FOLDER]: opens the learners' page in a headless Chromium, does what each panel is for, and reads what it shows.
// Where FOLDER is given, pictures of the page are put there.
import assert from "node:assert/strict";
import { writeFileSync } from "node:fs";
import { join } from "node:path";
import { Page } from "./browser.mjs";
import { lowContrast } from "./contrast.mjs";

const [program, folder] = process.argv.slice(2);
const url = new URL("../../docs/explore/index.html", import.meta.url).href;
const page = await Page.open(program, url);
let checks = 0;

function same(seen, expected) {
  checks++;
  assert.deepEqual(seen, expected);
}

// every one of the words stands in what the element shows
async function says(selector, ...words) {
  const text = await page.text(selector);
  checks += words.length;
  for (const word of words) assert.ok(text.includes(word), `${selector} does not say "${word}": ${text}`);
}

const useSample = (record) => page.pressNamed("#store-samples button", record);

async function useRecord(record) {
  await page.type("#store-text", record);
  await page.key("Enter");
}

const tableRows = (selector) => page.texts(`${selector} tr`);
const marked = (selector) => page.evaluate(`[...document.querySelectorAll(${JSON.stringify(selector)})].map((cell) => cell.dataset.cell).join(", ")`);

// ---------- the panels

async function chooseStore() {
  await says("#store-said", "Record 1 7 3 6 4: accepted");
  await says("#store-facts", "base word 4 6 3 0 0 0", "shifts 0 1 3 4", "first nodes 0 5 3 2");
  await useRecord("1 7 2 6 3");
  await says("#store-said", "Refused 5, root: 2 has order 3, and n is 6", "still 1 7 3 6 4");
  await useRecord("1 9 2 6 3");
  await says("#store-said", "Refused 3, field: 9 is no prime");
  await useRecord("1 7 3 6 x");
  await says("#store-said", "A record is a list of numbers");
  await page.choose("#store-field", "0");
  await says("#store-said", "on bytes", "15 nodes; any 4 nodes return");
  await page.choose("#store-k", "10");
  same(await page.text("#now-record"), await page.evaluate(`document.querySelector("#store-text").value`));
  await page.choose("#store-field", "31");
  await page.choose("#store-n", "30");
  await says("#store-said", "modulo 31, 30 nodes; any 10 nodes return");
}

async function seeLayouts() {
  await useSample("1 7 3 6 4");
  same(await tableRows("#layouts .grid.plain tbody"), ["m0 1 · · · 6 2 3", "m1 · 1 · · 2 2 3", "m2 · · 1 · 2 5 3", "m3 · · · 1 5 6 3"].map((row) => `symbol ${row}`));
  same(await tableRows("#layouts .grid.ours tbody"), ["m0 4 6 3 · · · 3", "m1 6 3 · · · 4 3", "m2 · · · 4 6 3 3", "m3 · · 4 6 3 · 3"].map((row) => `symbol ${row}`));
  same((await tableRows("#layouts .grid.plain tfoot"))[0], "reads 1 1 1 1 4 4");
  same((await tableRows("#layouts .grid.ours tfoot"))[0], "reads 2 2 2 2 2 2");
  same((await tableRows("#layouts-figures")).slice(1), ["plain 3 1 4", "balanced 3 2 2", "no layout goes below 3 2"]);
  await page.press(`#layouts [data-key="ours row 1"]`);
  await page.press(`#layouts [data-key="plain node 4"]`);
  same(await marked("#layouts .ours .entry.in-row"), "1 0, 1 1, 1 5");
  same(await marked("#layouts .plain .entry.in-column"), "0 4, 1 4, 2 4, 3 4");
  await says("#layouts-said", "m1 writes nodes 1, 4 and 5 in the plain layout, nodes 0, 1 and 5 in the balanced", "Node 4 reads 4 symbols in the plain layout, 2 symbols in the balanced");
  await useSample("1 7 3 6 5");
  same((await tableRows("#layouts .grid.ours tfoot"))[0], "reads 1 2 2 2 2 1");
  await useSample("2 11 15 10");
  same((await tableRows("#layouts-figures")).slice(1), ["plain 6 1 10", "balanced 6 4 4", "no layout goes below 6 4"]);
}

const written = (layout) => page.texts(`#change-nodes .${layout} .written .name`);

async function changeSymbols() {
  await useSample("1 7 3 6 3");
  same(await page.texts("#change-nodes .ours .held"), ["6", "1", "1", "3", "6", "2"]);
  same(await page.texts("#change-nodes .plain .held"), ["1", "0", "2", "4", "2", "1"]);
  await page.press(`[data-key="symbol 1"]`);
  await page.type("#change-value", "5");
  await page.press("#change-to");
  await says("#change-said", "m1 goes from 1 to 5: it writes 4 nodes in either layout", "look at 10 symbols in the plain layout and at 8 in the balanced one");
  same(await written("ours"), ["node 0", "node 1", "node 4", "node 5"]);
  same(await written("plain"), ["node 1", "node 3", "node 4", "node 5"]);
  same((await page.texts("#change-nodes .ours .held")).map((held) => held.split(" ").pop()), ["0", "6", "1", "3", "1", "0"]);
  await says("#change-nodes .plain .node:nth-child(4)", "written", "reads m0 m1 m2");
  await page.type("#change-value", "7");
  await page.press("#change-to");
  await says("#change-said", "whole number from 0 to 6");
}

async function countTraffic() {
  await page.pressNamed("#change-many button", "10,000");
  const [head, all, busiest, looked] = await tableRows("#change-traffic");
  same([head, all, looked], ["10,000 changes Plain Balanced", "nodes written, all together 40,000 40,000", "symbols looked at, all together 100,000 80,000"]);
  const [, plain, ours] = busiest.match(/([\d,]+) ([\d,]+)$/).map((word) => Number(word.replace(",", "")));
  same([plain, ours >= 6667 && ours < 7200], [10000, true]);
  same(await page.evaluate(`[...document.querySelectorAll("#change-bars .bars")].map((bars) => bars.children.length)`), [6, 6, 6, 6]);
}

const lose = (node) => page.press(`[data-key="lose ${node}"]`);

// the two messages that are shown differ, and hold the same exactly at the framed nodes and where a sign says so
async function readTwins(selector) {
  const [first, second, signs] = await page.evaluate(`[...document.querySelectorAll(${JSON.stringify(`${selector} .twins tbody tr`)})]
    .map((row) => [...row.cells].map((cell) => ({ text: cell.innerText, seen: cell.classList.contains("seen") })))`);
  same(first[0].text !== second[0].text, true);
  for (const j of first.keys()) if (j > 0) same(signs[j].text, first[j].text === second[j].text ? "=" : "≠");
  const nodes = signs.slice(1);
  return { messages: [first[0].text, second[0].text], seen: [...nodes.keys()].filter((j) => nodes[j].seen), signs: nodes.map(({ text }) => text) };
}

async function loseNodes() {
  for (const node of [0, 1, 5]) await lose(node);
  await says("#lose-said", "3 nodes are left, and the message comes back: 1 5 2", "Not one more can be spared", "m1 =");
  await says("#lose-said", "node 2: 3·m0 + 6·m2 = 1", "node 3: m0 + m2 = 3", "node 4: 6·m1 + 3·m2 = 1");
  await lose(2);
  await says("#lose-said", "2 nodes are left, fewer than k = 3: the message is lost", "7 messages fit", "2 equations for 3 symbols");
  const { messages, seen, signs } = await readTwins("#lose-said");
  same([messages[0], seen, seen.every((j) => signs[j] === "=")], ["1 5 2", [3, 4], true]);
  await page.press(`[name=lose-layout][value=plain]`);
  await says("#lose-said", "2 nodes are left", "m0 + 3·m1");
  await page.press("#lose-k");
  await says("#lose-said", "3 nodes are left, and the message comes back: 1 5 2");
  await page.press("#lose-fewer");
  await says("#lose-said", "2 nodes are left, fewer than k");
  await page.press("#lose-none");
  await says("#lose-said", "6 nodes are left");
}

const takeWay = (words) => page.pressNamed("#shifts-ways button", words);
const shiftsShown = () => page.evaluate(`[...document.querySelectorAll("#shifts-grid .turn input")].map((input) => input.value).join(" ")`);

async function goWrongWays() {
  await useSample("1 7 3 6 4");
  await says("#shifts-verdict", "all 15 sets of 4 nodes were tried, and each fixes the message", "the rows are those of the rule");
  await takeWay("wrong way");
  await says("#shifts-verdict", "all 15 sets", "1 1 0 0 is stored as 4 3 2 3 0 0, by the rule as 3 2 3 0 0 4", "reads yours as 2 4 4 6: another image, and no alarm");
  await takeWay("twice");
  same(await shiftsShown(), "0 0 3 4");
  await says("#shifts-verdict", "The nodes read 2 2 3 2 2 1 symbols", "No: none of the 15 sets of 4 nodes does, and not even all 6 nodes together");
  const { seen, signs } = await readTwins("#shifts-twins");
  same([seen, new Set(signs).size], [[0, 1, 2, 3], 1]);
  await takeWay("others");
  same(await shiftsShown(), "0 2 3 5");
  await says("#shifts-verdict", "The nodes read 2 2 2 2 2 2 symbols", "all 15 sets", "another image, and no alarm");
  await takeWay("By the rule");
}

async function shiftByHand() {
  const [first, second] = [await page.middle(`#shifts-grid [data-cell="0 0"]`), await page.middle(`#shifts-grid [data-cell="0 1"]`)];
  await page.drag(`#shifts-grid [data-cell="0 2"]`, 2 * (second.x - first.x));
  same(await shiftsShown(), "4 1 3 4");
  await says("#shifts-verdict", "broken: Any 4 nodes return the message?", "none of the 15 sets");
  await page.type(`[data-key="shift 0"]`, "2");
  await page.key("Enter");
  same(await shiftsShown(), "2 1 3 4");
  await page.press(`[data-key="right 0"]`);
  same(await shiftsShown(), "1 1 3 4");
}

async function mistype() {
  await useSample("1 7 3 6 3");
  await page.press(`#shifts-grid [data-cell="0 0"]`);
  await page.type("#shifts-entry-value", "1");
  await page.key("Enter");
  await says("#shifts-verdict", "No: 1 of the 20 sets of 3 nodes that were tried does not, the first of them nodes 0, 2 and 4", "no word of the code");
  const { seen, signs } = await readTwins("#shifts-twins");
  same([seen, seen.map((j) => signs[j])], [[0, 2, 4], ["=", "=", "="]]);
  await page.press("#shifts-dozen");
  await says("#shifts-dozen-said", "12 sets were tried", "Of all 20 sets 1 fails. So many tries miss it with probability 0.4.");
  await page.type("#shifts-entry-node", "6");
  await page.key("Enter");
  await says("#shifts-entry-said", "a node's from 0 to 5");
  await says("#shifts .part", "1,861,798,336,361,982,481,901,297,314,514,134,168,782,765,373,754,021,736,877,885,654,270,513,242,525 sets", "one part in 1.6·10^74: no trying helps");
  await useRecord("1 31 3 30 15");
  await says("#shifts-verdict", "There are 155,117,520 sets of 15 nodes; 12 were tried, and none failed", "the theorem shifted_basis covers all of them");
  await takeWay("twice");
  await says("#shifts-verdict", "none of the 155,117,520 sets of 15 nodes does");
  await takeWay("mistyped");
  same(/unknown: Any 15 nodes.* Nobody knows|broken: Any 15 nodes.* that were tried/.test(await page.text("#shifts-verdict")), true);
}

async function takeWrongRoots() {
  await useSample("1 7 3 6 3");
  await says("#root-verdict", "2^6 = 1? Yes", "Order exactly 6? No: 2^3 = 1 already. The record meets number 5");
  await says("#root-verdict", "nodes 0 and 3, 1 and 4, 2 and 5 hold the same symbol", "No: 12 of the 20 sets do not");
  const { signs, seen } = await readTwins("#root-twins");
  same(seen.every((j) => signs[j] === "="), true);
  same(await page.evaluate(`document.querySelectorAll("#root-ring .chord").length`), 3);
  await page.press("[name=root-rows][value=rule]");
  await says("#root-grid", "the rule's rows with this root");
  await page.choose("#root-choice", "3");
  await says("#root-verdict", "Order exactly 6? Yes", "no two nodes need hold the same", "Yes: all 20 sets were tried");
  await useSample("1 7 3 6 4");
  await says("#root-verdict", "every entry is 0");
  await useRecord("1 31 3 30 15");
  await says("#root-verdict", "broken: Any 15 nodes return the message? No: nodes");
  await page.press("[name=root-rows][value=coefficients]");
  await says("#root-verdict", "broken: Any 15 nodes return the message? No: nodes");
}

// one symbol, no parity, two nodes: every way to go wrong, and no text that is none
async function takeExtremes() {
  for (const record of ["1 7 3 6 1", "1 7 3 6 6", "1 3 2 2 2", "1 251 20 5 2"]) {
    await useRecord(record);
    await page.press("#lose-fewer");
    for (const way of ["wrong way", "twice", "others", "mistyped"]) await takeWay(way);
    await says("#store-said", `Record ${record}: accepted`);
    same([record, (await page.text("body")).match(/NaN|undefined|null|Infinity|\[object/)], [record, null]);
  }
}

// how many points of the picture have the colour at one of them
async function coloured(id, x, y) {
  return page.evaluate(`(() => {
    const canvas = document.getElementById(${JSON.stringify(id)}), { data } = canvas.getContext("2d").getImageData(0, 0, canvas.width, canvas.height);
    const at = 4 * (${y} * canvas.width + ${x});
    let count = 0;
    for (let i = 0; i < data.length; i += 4) if (data[i] === data[at] && data[i + 1] === data[at + 1] && data[i + 2] === data[at + 2]) count++;
    return count / 16;
  })()`);
}

async function seeLarge() {
  await says("#large-all", "1,861,798,336,361,982,481,901,297,314,514,134,168,782,765,373,754,021,736,877,885,654,270,513,242,525");
  await says("#large-said", "Symbol 37 writes 136 nodes: 0 to 62 and 182 to 254", "shift is 73", "begins at node 182", "Node 200 reads 64 symbols: 28 to 91");
  same(await coloured("large-picture", 800, 4 * 37 + 1), 136 + 64 - 1);
  await page.press("[name=large-layout][value=plain]");
  await says("#large-said", "Symbol 37 writes 136 nodes: 37 and 120 to 254", "Node 200 reads 120 symbols: 0 to 119");
  await page.press("[name=large-layout][value=ours]");
  await page.press("#large-picture");
  await says("#large-said", "Symbol 59 writes 136 nodes", "Node 127 reads 64 symbols");
  await page.press("#large-row");
  await page.key("ArrowRight");
  await says("#large-said", "Symbol 60 writes 136 nodes");
  await page.press("#large-dozen");
  await settled(`document.querySelector("#large-tried").innerText.startsWith("12 sets tried, 0 failed.")`);
  await says("#large-tried", "one part in 1.6·10^74", "it is a theorem");
  await page.press("#large-typed");
  await says("#large-tried", "No set has been tried");
}

// waits for a few seconds until it holds
async function settled(expression) {
  checks++;
  for (let i = 0; i < 100; i++) {
    if (await page.evaluate(expression)) return;
    await new Promise((resolve) => setTimeout(resolve, 100));
  }
  assert.fail(`never: ${expression}`);
}

// each exercise with a usual slip, what is said to it, and the answer
const EXERCISES = [
  ["How many symbols does each", "1 1 1 1 3 3", "A parity node that missed a symbol", "1 1 1 1 4 4"],
  ["Which row has the shift 1", "0 4 6 3 0 0", "turned right", "6 3 0 0 0 4"],
  ["Which shifts has", "0 2 3 5", "not the rule's", "0 1 3 4"],
  ["are roots for n = 6", "2 3 5", "2^3 = 1 already", "5 3"],
  ["with the shifts 0 0 3 4", "1 1 0 0", "That is stored as 1 5 6 0 0 0", "1 6 0 0"],
  ["Only nodes 2 and 3 are left", "1 0 3", "for yours 0 and 4", "1 5 2"],
  ["nodes 5, 0 and 1 hold", "1 2 5", "would hold", "1 5 2"],
  ["the rows begin at nodes 0 2 4 1 3", "2 2 2 2 1 1", "The sum is right", "1 2 2 2 2 1"],
  ["the node list 9 3 4 3", "10", "tested before repeats", "9"],
  ["1 1 0 5 2 7", "6", "writes part of its output", "0"],
  ["You try twelve different sets", "12/20", "How many are not tried", "2/5"],
  ["the busiest node read", "136 64", "what a changed symbol writes", "120 64"],
];

async function answer(at, words) {
  await page.type(`#exercise-${at}`, words);
  await page.key("Enter");
}

async function doExercises() {
  same((await page.texts(".exercise label")).length, EXERCISES.length);
  for (const [at, [ask, slip, hint, right]] of EXERCISES.entries()) {
    await says(`.exercise:nth-child(${at + 1}) label`, ask);
    await answer(at, slip);
    await says(`#exercise-${at}-said`, "Not yet.", hint);
    await answer(at, right);
    await says(`#exercise-${at}-said`, "Right.");
  }
  await says("#exercises-score", `${EXERCISES.length} of ${EXERCISES.length} solved`);
}

// ---------- for everyone: keys, names, contrast, widths, paper

const focused = () => page.evaluate(`({ key: document.activeElement.dataset.key ?? document.activeElement.id, ring: getComputedStyle(document.activeElement).outlineStyle })`);

async function useKeys() {
  await useSample("1 7 3 6 3");
  await page.evaluate(`document.querySelector("[name=lose-layout]:checked").focus()`);
  await page.key("Tab");
  await page.key("Tab");
  same(await focused(), { key: "lose 1", ring: "solid" });
  await page.key(" ");
  same(await focused(), { key: "lose 1", ring: "solid" });
  await says("#lose-said", "5 nodes are left");
  await page.evaluate(`document.querySelector('[data-key="shift 1"]').focus()`);
  await page.key("ArrowUp");
  same([await shiftsShown(), (await focused()).key], ["0 3 4", "shift 1"]);
}

async function haveNames() {
  const { nodes } = await page.send("Accessibility.getFullAXTree");
  const roles = ["button", "textbox", "combobox", "spinbutton", "slider", "radio", "checkbox", "link", "image", "region", "group"];
  const asked = nodes.filter(({ ignored, role }) => !ignored && roles.includes(role?.value));
  const nameless = asked.filter(({ role, name }) => role.value !== "group" && !name?.value).map(({ role }) => role.value);
  same([nameless, asked.length > 80], [[], true]);
}

async function picture(name) {
  if (folder) writeFileSync(join(folder, `${name}.png`), await page.picture());
}

// no sideways scrolling of the page, and enough contrast, at this width and in this light
async function fits(width, scheme, record) {
  await page.media("screen", scheme);
  await page.size(width, 900);
  await useRecord(record);
  same(await page.evaluate(`document.documentElement.dataset.theme`), scheme);
  same([width, record, await page.evaluate(`document.documentElement.scrollWidth - document.documentElement.clientWidth`)], [width, record, 0]);
  same([scheme, await page.evaluate(`(${lowContrast})(4.5)`)], [scheme, []]);
  await picture(`${width}-${scheme}-${record.replaceAll(" ", "-")}`);
}

async function print() {
  await page.size(1000, 900);
  await useSample("1 7 3 6 4");
  await page.media("print", "dark");
  const styles = `[getComputedStyle(document.querySelector(".bar-top")).display, getComputedStyle(document.body).backgroundColor, getComputedStyle(document.body).color]`;
  same(await page.evaluate(styles), ["none", "rgb(255, 255, 255)", "rgb(24, 34, 46)"]);
  const { data } = await page.send("Page.printToPDF", { printBackground: true });
  const pages = Buffer.from(data, "base64").toString("latin1").match(/\/Type \/Page\b/g).length;
  same(pages >= 3 && pages <= 14, true);
  if (folder) writeFileSync(join(folder, "printed.pdf"), Buffer.from(data, "base64"));
}

async function changeTheme() {
  await page.media("screen", "light");
  await page.press("#theme");
  same([await page.evaluate(`document.documentElement.dataset.theme`), await page.text("#theme")], ["dark", "Light"]);
  await page.press("#theme");
}

try {
  await page.media("screen", "light");
  await page.size(1400, 900);
  for (const step of [chooseStore, seeLayouts, changeSymbols, countTraffic, loseNodes, goWrongWays, shiftByHand, mistype, takeWrongRoots, takeExtremes, seeLarge, doExercises]) await step();
  for (const step of [useKeys, haveNames, changeTheme]) await step();
  for (const width of [1400, 1000, 390]) for (const scheme of ["light", "dark"]) await fits(width, scheme, "1 7 3 6 4");
  await fits(1000, "light", "2 11 15 10");
  await fits(390, "light", "1 31 3 30 15");
  await print();
  same(page.complaints, []);
  console.log(`the page in Chromium: ${checks} checks passed, nothing on the console`);
} finally {
  await page.close();
}
