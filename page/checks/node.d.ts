// What the checks use of Node, for the types alone: Debian has no package with Node's own types.

declare module "node:assert/strict" {
  function assert(value: unknown, message?: string): asserts value;
  namespace assert {
    function ok(value: unknown, message?: string): asserts value;
    function equal<T>(actual: unknown, expected: T, message?: string): asserts actual is T;
    function notEqual(actual: unknown, expected: unknown, message?: string): void;
    function deepEqual(actual: unknown, expected: unknown, message?: string): void;
    function notDeepEqual(actual: unknown, expected: unknown, message?: string): void;
    function match(actual: string, expected: RegExp, message?: string): void;
    function doesNotMatch(actual: string, expected: RegExp, message?: string): void;
    function throws(action: () => unknown, expected?: unknown, message?: string): void;
  }
  export default assert;
}

declare module "node:fs" {
  type Place = string | URL;
  export function readFileSync(file: Place): Buffer;
  export function readFileSync(file: Place, encoding: "utf8"): string;
  export function writeFileSync(file: Place, data: string | Uint8Array): void;
  export function readdirSync(folder: Place): string[];
  export function existsSync(file: Place): boolean;
  export function mkdirSync(folder: Place, options?: { recursive?: boolean }): void;
  export function mkdtempSync(prefix: string): string;
  export function rmSync(file: Place, options?: { recursive?: boolean; force?: boolean }): void;
}

declare module "node:child_process" {
  type Stream = { setEncoding(encoding: string): Stream; on(event: "data", told: (data: string) => void): Stream; write(data: string): void };
  export interface Child {
    stdio: [null, null, null, Stream, Stream];
    exitCode: number | null;
    signalCode: string | null;
    kill(signal: string): void;
    once(event: "exit", told: (value?: unknown) => void): void;
  }
  export function spawn(program: string, args: string[], options: { stdio: string[] }): Child;
  export function execFileSync(program: string, args: string[], options?: { stdio?: string; cwd?: string; env?: { [name: string]: string | undefined }; input?: string }): Buffer;
  export function execFileSync(program: string, args: string[], options: { encoding: "utf8"; stdio?: string | string[]; cwd?: string; env?: { [name: string]: string | undefined }; input?: string }): string;
  export function spawnSync(program: string, args: string[], options: { encoding: "utf8"; cwd?: string }): { status: number | null; stdout: string; stderr: string };
}

declare module "node:crypto" {
  export function createHash(name: "sha256"): { update(data: string | Uint8Array): { digest(form: "hex"): string } };
}

declare module "node:os" {
  export function tmpdir(): string;
}
declare module "node:path" {
  export function join(...parts: string[]): string;
}
declare module "node:url" {
  export function fileURLToPath(url: string | URL): string;
}

declare interface Buffer extends Uint8Array {
  toString(encoding?: string): string;
  subarray(from?: number, to?: number): Buffer;
  equals(other: Uint8Array): boolean;
}
declare const Buffer: {
  from(data: string, encoding?: string): Buffer;
  from(data: ArrayLike<number>): Buffer;
  alloc(size: number, fill?: number): Buffer;
  concat(parts: Uint8Array[]): Buffer;
  byteLength(text: string): number;
};
declare const process: { argv: string[]; env: { [name: string]: string | undefined }; exitCode: number };
