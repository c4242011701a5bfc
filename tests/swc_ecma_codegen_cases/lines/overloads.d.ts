// Functions, methods and constructors without a body, one behind another.
declare function f(): void;
declare function f(a: string): number;
declare function f<T extends string>(a: T, b?: [T, ...T[]]): asserts a is T;
export declare abstract class Store<K, V> extends Base<K> implements Iterable<[K, V]> {
    constructor(entries?: readonly (readonly [K, V])[] | null);
    constructor(size: number);
    get size(): number;
    set(key: K, value: V): this;
    set(entries: Map<K, V>): this;
    protected abstract load(key: K): Promise<V>;
    static of<T>(...items: T[]): Store<number, T>;
    static of(): Store<number, never>;
    private static next;
    [Symbol.iterator](): IterableIterator<[K, V]>;
    [key: string]: unknown;
}
declare namespace a.b {
    function g(): void;
    function g(a: number): void;
    const c: unique symbol;
}
interface Shape {
    (a: number): string;
    new (a: number): Shape;
    readonly [index: number]: string;
    method?(): void;
    method(a: `${string}-${number}`): void;
}
type Getters<T> = { readonly [K in keyof T as `get${Capitalize<K & string>}`]?: T[K] extends infer U ? U : never };
declare module "m" {
    export function k(): 1 | 2;
    export function k(a: bigint): 3;
    export { k as l };
}
export default function h(): void;
export default function h(a: bigint): void;
