// Elements among expressions and types of a module.
import React, { useState as state, type FC } from "react";
import * as all from "./all.js";
export const List: FC<{ items: string[] }> = ({ items, ...rest }) => {
    const [open, setOpen] = state<boolean>(false);
    const shown = items.filter((item, at) => item.length > 3 && at < 10 || open);
    return <ul {...rest} onClick={() => setOpen(!open)} title="a, b; (c)">
        {shown.map((item) => <li key={item} data-n={[1, 2, 3].length + 4}>{item}, and (more); {"x" + item}</li>)}
        <>{open ? <b>a{1 + 2}</b> : null}</>
    </ul>;
};
@decorate({ a: 1, b: [2, 3] })
export class Box<T> extends Base<T, string> {
    constructor(private readonly a: T, public b?: number) { super(a as any, b! + 1, all.c satisfies string); }
    get<K extends keyof T>(key: K): T[K];
    get(key: string, other: [string, number]): unknown;
    get(...args: unknown[]) { return args.reduce((a, b) => (a as number) + (b as number), 0); }
}
export * from "./x.js";
export { a as b, c } from "./y.js";
