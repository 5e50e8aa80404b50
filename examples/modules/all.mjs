export * from "./numbers.mjs";
export { one as renamed, one } from "./others.mjs";
export { default } from "./others.mjs";
export * as inner from "./numbers.mjs";
export {} from "./start.mjs"
