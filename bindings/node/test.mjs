// node --test bindings/node/test.mjs, with the program in the environment variable PATCHSARD or on PATH.
import assert from "node:assert/strict";
import { after, before, test } from "node:test";
import { Patchsard } from "./client.mjs";

const base = "https://example.com/order";
const order = { $defs: { item: { type: "string" }, "a/b~c": { $anchor: "odd" } }, examples: [[]], allOf: [{ $ref: "#/$defs/item" }] };
let patchsard;
before(() => (patchsard = new Patchsard()));
after(() => patchsard.end());

test("a look-up answers the caller's own object", async () => {
    const registry = await patchsard.open([[base, order]]);
    const found = await registry.lookup(base, "#/$defs/item");
    assert.equal(found.value, order.$defs.item);
    assert.equal(found.draft, "2020-12");
    assert.deepEqual(found.scope, [base]);
    assert.equal((await registry.lookup(base, "#odd")).value, order.$defs["a/b~c"]);
    assert.equal((await registry.lookup(base, "")).value, order);
    await registry.close();
    await assert.rejects(registry.lookup(base, ""), { name: "UnknownRegistry" });
});

test("many references in one line", async () => {
    const registry = await patchsard.open([[base, order]]);
    const [found, missing] = await registry.lookup(base, ["#/examples/0", "#/$defs/itme"]);
    assert.equal(found.value, order.examples[0]);
    assert.equal(missing.error.name, "PointerToNowhere");
});

test("calls that wait for one another's answers", async () => {
    const registry = await patchsard.open([[base, order]]);
    const all = await Promise.all(Array.from({ length: 100 }, (_, number) => registry.lookup(base, number % 2 ? "#/$defs/item" : "#odd")));
    assert.ok(all.every(({ value }, number) => value === (number % 2 ? order.$defs.item : order.$defs["a/b~c"])));
});

test("many calls at once, some of them made while others wait", async () => {
    const registry = await patchsard.open([[base, { $defs: Object.fromEntries(Array.from({ length: 50 }, (_, number) => [number, { const: number }])) }]]);
    const one = async (number) => {
        const { value } = await registry.lookup(base, `#/$defs/${number % 50}`);
        assert.equal(value.const, number % 50);
        if (number % 7 === 0) assert.equal((await registry.lookup(base, `#/$defs/${number % 11}`)).value.const, number % 11);
    };
    await Promise.all(Array.from({ length: 3000 }, (_, number) => one(number)));
});

test("look-ups that are made together are asked together", async () => {
    const registry = await patchsard.open([[base, order]]);
    const { stdin } = patchsard.process;
    const { write } = stdin;
    let lines = 0;
    stdin.write = (text, ...more) => ((lines += text.split("\n").length - 1), write.call(stdin, text, ...more));
    const many = await Promise.all(Array.from({ length: 2500 }, (_, number) => registry.lookup(base, number % 2 ? "#/$defs/item" : "#odd")));
    assert.ok(many.every(({ value }, number) => value === (number % 2 ? order.$defs.item : order.$defs["a/b~c"])));
    assert.equal(lines, 3);
    // Each has its own answer or error, and all come before the call that is made after them.
    const asked = ["#odd", "#/$defs/itme", "#/$defs/item", "\ud800", "#nothing", 1, "#/examples/0"].map((it) => registry.lookup(base, it));
    asked.push(registry.lookup("a b", "#"), registry.lookup("a b", "#odd"), registry.lookup(base, "", ["u:x"]), registry.close());
    const found = await Promise.allSettled(asked);
    delete stdin.write;
    assert.deepEqual(found.map((it) => it.reason?.name ?? it.value.value), [
        order.$defs["a/b~c"], "PointerToNowhere", order.$defs.item, "NotJson", "NoSuchAnchor", "InvalidField", order.examples[0], "InvalidUri", "InvalidUri", order, undefined,
    ]);
    assert.deepEqual(found.at(-2).value.scope, ["u:x"]);
    assert.equal(lines, 11);
});

test("documents whose URIs mean the same", async () => {
    const [first, second, third] = [{ const: 1 }, { const: 2 }, { const: 3 }];
    const registry = await patchsard.open([["http://a/v", first], ["HTTP://a/v", second], ["http://a/w", third]]);
    assert.equal((await registry.lookup("http://a/v", "")).value, second);
    assert.equal((await registry.lookup("http://a/w", "")).value, third);
});

test("documents that are retrieved", async () => {
    const item = { $ref: "part" };
    const part = { type: "integer" };
    const files = new Map([["https://example.com/item", item], ["https://example.com/part", part]]);
    const registry = await patchsard.open([[base, { $ref: "item" }]], { retrieve: async (uri) => files.get(uri) });
    assert.equal((await registry.lookup(base, "part")).value, part);
    await assert.rejects(patchsard.open([[base, { $ref: "item" }]]), { name: "Unretrievable", uri: "https://example.com/item", kind: "reference" });
});

test("faults that are kept", async () => {
    const [a, b] = [{ $id: "a b", not: { $ref: "gone#/x" }, items: { $ref: "b" } }, { $anchor: "n" }];
    const documents = [["https://example.com/a", a], ["https://example.com/b", b]];
    await assert.rejects(patchsard.open(documents), { name: "InvalidUri" });
    const registry = await patchsard.open(documents, { faults: "keep" });
    assert.deepEqual(registry.faults.map((it) => [it.document, it.pointer, it.keyword, it.text, it.error.name]), [[0, "", "$id", "a b", "InvalidUri"], [0, "/not", "$ref", "gone#/x", "Unretrievable"]]);
    assert.equal((await registry.lookup("https://example.com/a", "b#n")).value, b);
    await assert.rejects(registry.lookup("https://example.com/a", "gone"), { name: "Unretrievable", uri: "https://example.com/gone" });
});

test("a registry behind another", async () => {
    const parent = await patchsard.open([[base, order]]);
    const part = { $ref: "order#odd" };
    const registry = await patchsard.open([["https://example.com/part", part]], { parent });
    await parent.close();
    assert.equal((await registry.lookup("https://example.com/part", "#")).value, part);
    assert.equal((await registry.lookup("https://example.com/part", "order#odd")).value, order.$defs["a/b~c"]);
});

test("a scope that is kept", async () => {
    const [tree, strict] = ["tree", "strict"].map((it) => ({ $id: `https://example.com/${it}`, $dynamicAnchor: "node" }));
    const registry = await patchsard.open([[tree.$id, tree], [strict.$id, strict]]);
    const number = await registry.keep([strict.$id]);
    for (const scope of [number, ["https://example.com/x", number]]) {
        const found = await registry.lookup(tree.$id, "#node", scope);
        assert.equal(found.value, strict);
        assert.deepEqual(found.scope, [scope].flat());
    }
    await assert.rejects(registry.lookup(tree.$id, "#node", number + 1), { name: "UnknownScope", field: "scope" });
});

test("a program that ends", async () => {
    const other = new Patchsard();
    const registry = await other.open([[base, order]]);
    other.end();
    await new Promise((resolve) => other.process.on("close", resolve));
    await assert.rejects(other.open([]), /has ended/);
    for (const asked of [[""], ["", "#odd"]]) {
        const found = await Promise.allSettled(asked.map((it) => registry.lookup(base, it)));
        assert.ok(found.every(({ reason }) => /has ended/.test(reason.message)));
    }
});

test("documents in YAML", async () => {
    const texts = ["$defs:\n  item: {$ref: 'other#/a'}\n", "a: {type: string}\n"];
    const registry = await patchsard.open([[base, { yaml: texts[0] }]], { retrieve: async () => ({ yaml: texts[1] }) });
    const { value } = await registry.lookup(base, "other#/a");
    assert.deepEqual(value, { type: "string" });
    assert.deepEqual(await patchsard.yaml("200: [a, ~]"), { 200: ["a", null] });
    await assert.rejects(patchsard.open([[base, { yaml: "a: 1\na: 2" }]]), { name: "NotYaml", reason: "same-key", offset: 5 });
});
