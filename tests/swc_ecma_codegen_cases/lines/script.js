// Operators, templates, regular expressions and private names.
"use strict";
for (let i = 0, n = list.length; i < n; i++) if (a + b * c - d ** e || !f && g in h) continue; else i += -i - -n;
function* walk({ a, b = 1, ...rest }, [c, , d] = []) {
    yield* a;
    return `x, ${a + b}; ${`(${(c, d)}`}`;
}
const o = {
    m() { return /[,;({]+/g.exec("a,b;c({["); },
    get p() { return this?.q?.(1, 2)?.[3]; },
    async *[`k${1 + 2}`]() { for await (const [x, y] of z) await x.y(z); },
    f: async (a, b) => ({ a, b: b.c << 2 >>> 1 })
};
label: do {
    try { throw new Error("x" + o.m(1, 2)); } catch { break label; } finally { debugger; }
} while (a >= b ? c : d, e);
switch (a) { case 1: case 2: break; default: a ||= b ?? (c && d); }
class A extends (B, C) {
    static #x = 1;
    static { this.#x++; }
    #m(a, b) { return #x in a instanceof b; }
    ["a" + "b"] = [1, [2, 3], { c: [4] }];
}
