export const first = 1
export const second = first + 1
export default "not all of it";
