export const kind = "lazy"
export default (word) => word + "!";
