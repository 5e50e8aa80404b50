const { PI } = Math;
export default function (radius) {
  return PI * radius ** 2;
}
