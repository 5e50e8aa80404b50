// A list that names what is declared elsewhere in the file.
function write(first, ...rest) {
  console.log(first + ": " + rest.join(", "));
}
export { write as say };
