export const unit = "m", { abs } = Math;
export default function line(from, to) { return abs(to - from); }
