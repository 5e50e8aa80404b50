export var side = Math.max(1, 2), unit = "m";
export function area(length) { return length * length; }
export async function slowly(length) { return area(length); }
export function* sides(length) { for (let i = 0; i < 4; i++) yield length; }
export let perimeter = (length) => { let sum = 0; for (const one of sides(length)) { sum += one; } return sum; };
