// The part of site/show that asks Node: is the module valid, what does it import and export, and what stands in memory where its data was placed?
// Node names imports without their limits and types, so those are read here from the bytes, as far as standard modules of this encoder have them.
'use strict';
const bytes = require('fs').readFileSync(process.argv[2]);
const typeNames = { 0x7f: 'i32', 0x7e: 'i64', 0x7d: 'f32', 0x7c: 'f64', 0x7b: 'v128', 0x70: 'anyfunc', 0x6f: 'externref' };

class Unread extends Error {}

// Reads numbers, names and lists from a part of the module.
class Reader {
    constructor(from, to) { this.at = from; this.to = to; }
    byte() {
        if (this.at >= this.to) throw new Unread('the bytes end early');
        return bytes[this.at++];
    }
    unsigned() {
        let n = 0n, shift = 0n, b;
        do { b = this.byte(); n |= BigInt(b & 0x7f) << shift; shift += 7n; } while (b & 0x80);
        return Number(n);
    }
    signed() {
        let n = 0n, shift = 0n, b;
        do { b = this.byte(); n |= BigInt(b & 0x7f) << shift; shift += 7n; } while (b & 0x80);
        return Number(b & 0x40 ? n - (1n << shift) : n);
    }
    name() { return this.skip(this.unsigned()).toString('utf8'); }
    skip(length) { return bytes.subarray(this.at, this.at += length); }
    list(member) { return Array.from({ length: this.unsigned() }, () => member(this)); }
    type() {
        const b = this.byte();
        if (!(b in typeNames)) throw new Unread(`type ${b.toString(16)} is not read here`);
        return typeNames[b];
    }
    limits() {
        const flags = this.byte();
        if (flags > 1) throw new Unread('shared and 64-bit limits are not read here');
        const initial = this.unsigned();
        return flags ? { initial, maximum: this.unsigned() } : { initial };
    }
}

// The list of a section's members, empty where the module has no such section.
function section(id, member) {
    const all = new Reader(8, bytes.length);
    while (all.at < all.to) {
        const found = all.byte(), size = all.unsigned(), from = all.at;
        if (found === id) return new Reader(from, from + size).list(member);
        all.skip(size);
    }
    return [];
}

function functionType(r) {
    if (r.byte() !== 0x60) throw new Unread('types other than function types are not read here');
    return { parameters: r.list(() => r.type()), results: r.list(() => r.type()) };
}

function madeGlobal(r) {
    const value = r.type(), mutable = r.byte() === 1;
    return new WebAssembly.Global({ value, mutable });
}

function madeTag(r, types) {
    r.byte();
    return new WebAssembly.Tag({ parameters: types()[r.unsigned()].parameters });
}

// An import with something made to fit it.
function fitted(r, types) {
    const module = r.name(), name = r.name(), sort = r.byte();
    const make = [
        () => { r.unsigned(); return () => 0; },
        () => { const element = r.type(); return new WebAssembly.Table({ element, ...r.limits() }); },
        () => new WebAssembly.Memory(r.limits()),
        () => madeGlobal(r),
        () => madeTag(r, types),
    ][sort];
    if (!make) throw new Unread(`an import of sort ${sort} is not read here`);
    return { module, name, made: make() };
}

function segment(r) {
    const flag = r.unsigned();
    if (flag === 1) return { place: null, data: r.skip(r.unsigned()) };
    const memory = flag === 2 ? r.unsigned() : 0, code = r.byte();
    if (code !== 0x41) throw new Unread('data placed by another expression than a number is not read here');
    const place = r.signed() >>> 0;    // an address, without a sign
    if (r.byte() !== 0x0b) throw new Unread('data placed by several instructions is not read here');
    return { memory, place, data: r.skip(r.unsigned()) };
}

function shownBytes(part) {
    const text = Array.from(part, b => b >= 0x20 && b < 0x7f ? String.fromCharCode(b) : '.').join('');
    const view = new DataView(part.buffer, part.byteOffset, part.length);
    const numbers = Array.from({ length: part.length >> 2 }, (_, i) => view.getUint32(4 * i, true));
    return Buffer.from(part).toString('hex').toUpperCase() + ` "${text}"` + (part.length % 4 === 0 && part.length ? ` u32 ${numbers.join(' ')}` : '');
}

// Names and messages have characters of the module in them: as strings of a text, with \1B for what is not printable.
function shown(text) {
    return Buffer.from(text).toString('latin1').replace(/[^ -~]/g, c => '\\' + Buffer.from(c, 'latin1').toString('hex').toUpperCase());
}

function showSegment({ memory, place, data }, i, memories) {
    if (place === null) return console.log(`  data ${i}, passive: ${shownBytes(data)}`);
    const part = new Uint8Array(memories[memory].buffer, place, data.length);
    console.log(`  data ${i}, in memory at ${place}: ${shownBytes(part)}`);
}

// What make gives; where it throws, says what comes of that and why, and gives null.
function orSay(otherwise, make) {
    try { return make(); } catch (e) { console.log(`${otherwise}: ${shown(e.message)}`); return null; }
}

// An object with the imports for an instance, which asks for each in turn: of one name, too, each gets its own.
function given(imports) {
    const modules = Object.create(null);
    for (const { module, name } of imports) {
        const waiting = imports.filter(i => i.module === module && i.name === name);
        modules[module] ??= Object.create(null);
        Object.defineProperty(modules[module], name, { get: () => waiting.shift().made, configurable: true });
    }
    return modules;
}

// Says once whether the module was instantiated; then what of its data is read here. False where Node refuses.
function instantiated(module) {
    const imports = orSay('  instantiating not tried', () => section(2, r => fitted(r, () => section(1, functionType))));
    if (!imports) return true;
    if (!orSay('  not instantiated', () => new WebAssembly.Instance(module, given(imports)))) return false;
    console.log('  instantiated with its imports');
    const memories = imports.map(i => i.made).filter(made => made instanceof WebAssembly.Memory);
    orSay('  data not shown', () => section(11, segment))?.forEach((s, i) => showSegment(s, i, memories));
    return true;
}

if (!WebAssembly.validate(bytes)) {
    orSay('node: not valid', () => new WebAssembly.Module(bytes));
    process.exit(1);
}
console.log('node: valid');
const compiled = new WebAssembly.Module(bytes);
for (const { module, name, kind } of WebAssembly.Module.imports(compiled)) console.log(`  imports "${shown(module)}" "${shown(name)}" ${kind}`);
for (const { name, kind } of WebAssembly.Module.exports(compiled)) console.log(`  exports "${shown(name)}" ${kind}`);
if (!instantiated(compiled)) process.exit(1);
