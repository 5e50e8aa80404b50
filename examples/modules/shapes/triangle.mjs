export default "triangle"; export const corners = 3
export class Sum { static of(...numbers) { return numbers.reduce((a, b) => a + b, 0); } }
const sum = Sum.of;
export { sum, sum as plus, };
