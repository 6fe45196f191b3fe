// A client of `patchsard serve`: a line out for each call, a line in for each answer. Node 18 and later, no package.
//     const patchsard = new Patchsard();
//     const registry = await patchsard.open([["https://example.com/order", order]]);
//     const { value, base, scope } = await registry.lookup("https://example.com/order", "#/$defs/item");
//     patchsard.end();
// `value` is the caller's own object, not a copy; of documents whose URIs mean the same the last counts. An error of the protocol is thrown as an `Error` with its `name` and its further members.
import { spawn } from "node:child_process";

// An error of the protocol as it is thrown.
const thrown = (error) => Object.assign(new Error(error.message), error);

export class Patchsard {
    // Calls that wait for their answers: those from the number `#answered` on.
    #waiting = [];
    #answered = 0;
    #lines = [];
    // Look-ups that aren't among the lines yet: references, all from one registry, base and scope.
    #lookups = [];
    #from = "";
    constructor(program = process.env.PATCHSARD ?? "patchsard") {
        this.process = spawn(program, ["serve"], { stdio: ["pipe", "pipe", "inherit"] });
        const parts = []; // of a line that isn't whole yet
        this.process.stdout.setEncoding("utf8").on("data", (text) => {
            const lines = text.split("\n");
            parts.push(lines[0]);
            if (lines.length === 1) return;
            lines[0] = parts.splice(0).join("");
            parts.push(lines.pop());
            for (const line of lines) this.#answer(line);
        });
        const end = (error) => {
            this.ended ??= error;
            for (const { reject } of this.#waiting.splice(0).slice(this.#answered)) reject(this.ended);
        };
        for (const it of [this.process, this.process.stdin]) it.on("error", end);
        this.process.on("close", (status) => end(new Error(`${program} has ended, with status ${status}`)));
    }
    #answer(line) {
        const { resolve, reject } = this.#first();
        const { result, error } = JSON.parse(line);
        error ? reject(thrown(error)) : resolve(result);
    }
    // Answers come in the order of the calls. Taking the first of many out of a list would move all others each time.
    #first() {
        const first = this.#waiting[this.#answered];
        this.#waiting[this.#answered++] = undefined;
        if (this.#answered >= 1024 && 2 * this.#answered >= this.#waiting.length) {
            this.#waiting = this.#waiting.slice(this.#answered);
            this.#answered = 0;
        }
        return first;
    }
    call(call, members) {
        return new Promise((resolve, reject) => {
            const line = JSON.stringify({ call, ...members });
            this.#askLookups();
            this.#send(line, { resolve, reject });
        });
    }
    // A look-up of one reference, whose answer is handed to `found`. Those from one registry, base and scope that are made together are one call, of at most 1,000: a list is
    // answered in less time.
    lookup(from, reference, found) {
        // What is no text would be an error of the whole call.
        if (typeof reference !== "string" || /\p{Surrogate}/u.test(reference)) return this.call("lookup", { ...from, reference }).then(found);
        return new Promise((resolve, reject) => {
            const text = JSON.stringify(from);
            if (text !== this.#from || this.#lookups.length === 1000) this.#askLookups();
            this.#from = text;
            if (this.#lookups.length === 0) queueMicrotask(() => this.#askLookups());
            this.#lookups.push({ reference, found, resolve, reject });
        });
    }
    #askLookups() {
        const asked = this.#lookups.splice(0);
        if (asked.length === 0) return;
        const references = asked.map((it) => it.reference);
        const line = (reference) => `{"call":"lookup",${this.#from.slice(1, -1)},"reference":${JSON.stringify(reference)}}`;
        const answered = (answer, { found, resolve, reject }) => {
            try {
                answer.error ? reject(thrown(answer.error)) : resolve(found(answer));
            } catch (error) {
                reject(error); // where the caller's documents were changed
            }
        };
        const reject = (error) => asked.forEach((it) => it.reject(error));
        if (asked.length === 1) this.#send(line(references[0]), { resolve: (answer) => answered(answer, asked[0]), reject });
        else this.#send(line(references), { resolve: (answers) => answers.forEach((answer, number) => answered(answer, asked[number])), reject });
    }
    #send(line, waiting) {
        if (this.ended) return waiting.reject(this.ended);
        // Calls that are made together are written together.
        if (this.#lines.length === 0) queueMicrotask(() => this.process.stdin.write(this.#lines.splice(0).join("")));
        this.#lines.push(line + "\n");
        this.#waiting.push(waiting);
    }
    // The value of a text of YAML.
    async yaml(text) { return (await this.call("yaml", { text })).value; }
    // `retrieve` takes the URI of a document that isn't there, and answers a schema or a promise of one; `parent` is a registry. In place of a schema there may be `{ yaml: text }`.
    // With `faults: "keep"` the registry has `faults`, the list of those that documents have, and nothing is retrieved.
    async open(documents, { retrieve, parent, ...members } = {}) {
        documents = await Promise.all(documents.map(async ([uri, schema]) => [uri, await this.#read(schema)]));
        for (const remote = new Map(); ; ) {
            try {
                const answer = await this.call("open", { documents, remote: [...remote], parent: parent?.number, ...members });
                return new Registry(this, answer, this.#values(answer, documents, remote), parent);
            } catch (error) {
                if (!retrieve || !error.kind || remote.has(error.uri)) throw error;
                remote.set(error.uri, await this.#read(await retrieve(error.uri)));
            }
        }
    }
    // A schema, which may be given as a text of YAML.
    async #read(schema) {
        const isYaml = schema && Object.keys(schema).length === 1 && typeof schema.yaml === "string";
        return isYaml ? this.yaml(schema.yaml) : schema;
    }
    // The value of each document of an answer. Of those whose URIs mean the same the last counts.
    #values({ documents: uris, given }, documents, remote) {
        const values = uris.map((uri) => remote.get(uri));
        given.forEach((number, index) => (values[number] = documents[index][1]));
        return values;
    }
    end() { this.process.stdin.end(); }
}

class Registry {
    #find = (answer) => this.#found(answer);
    constructor(patchsard, { registry: number, faults }, documents, parent) { Object.assign(this, { patchsard, number, faults, documents, parent }); }
    // A list of references is one call, and gets a list: in each one's place what it leads to, or `{ error }`.
    lookup(base, reference, scope = []) {
        const from = { registry: this.number, base, scope };
        if (!Array.isArray(reference)) return this.patchsard.lookup(from, reference, this.#find);
        return this.patchsard.call("lookup", { ...from, reference }).then((answers) => answers.map((it) => (it.error ? it : this.#found(it))));
    }
    // The number under which the program keeps a scope: `scope` may be it, or end with it.
    async keep(scope) { return (await this.patchsard.call("scope", { registry: this.number, scope })).scope; }
    close() { return this.patchsard.call("close", { registry: this.number }); }
    #found(answer) {
        if (answer.registry !== this.number) return this.parent.#found(answer);
        answer.value = this.documents[answer.document];
        for (const token of answer.pointer.split("/").slice(1)) answer.value = answer.value[token.includes("~") ? token.replaceAll("~1", "/").replaceAll("~0", "~") : token];
        return answer;
    }
}
