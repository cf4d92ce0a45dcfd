// What scripts that node runs take of it: anything. tsc reads this, so that it needs no declarations of node.
declare module "node:assert/strict" {
  const assert: any;
  export default assert;
}
declare module "node:crypto" {
  export const createHash: any;
}
declare module "node:child_process" {
  export const spawn: any;
  export const spawnSync: any;
}
declare module "node:fs" {
  export const accessSync: any;
  export const chmodSync: any;
  export const closeSync: any;
  export const constants: any;
  export const copyFileSync: any;
  export const existsSync: any;
  export const lstatSync: any;
  export const mkdirSync: any;
  export const mkdtempSync: any;
  export const openSync: any;
  export const readFileSync: any;
  export const readSync: any;
  export const readdirSync: any;
  export const realpathSync: any;
  export const renameSync: any;
  export const rmSync: any;
  export const statSync: any;
  export const symlinkSync: any;
  export const writeFileSync: any;
  export const writeSync: any;
}
declare module "node:os" {
  export const tmpdir: any;
}
declare module "node:path" {
  export const basename: any;
  export const delimiter: any;
  export const dirname: any;
  export const isAbsolute: any;
  export const join: any;
  export const relative: any;
  export const resolve: any;
}
declare module "node:process" {
  export const argv: any;
  export const env: any;
  export const exit: any;
  export const kill: any;
  export const pid: any;
  export const stderr: any;
  export const stdin: any;
  export const stdout: any;
}
declare module "node:test" {
  export const describe: any;
  export const test: any;
}
declare module "node:tty" {
  export const isatty: any;
}
declare module "node:url" {
  export const fileURLToPath: any;
  export const pathToFileURL: any;
}
declare module "node:util" {
  export const parseArgs: any;
}
declare module "node:v8" {
  export const setFlagsFromString: any;
}
declare module "node:vm" {
  export const runInThisContext: any;
}

declare const process: any;
declare const Buffer: any;
type Buffer = any;
