import named, { kind } from "./lazy.mjs";
export default async function () { await null; return named(kind) + " again"; }
