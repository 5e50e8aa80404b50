export let one = "one";
export default async function* steps() { yield one; }
