// A cycle: even.js requires odd.js, and odd.js requires even.js.
var odd = require("./odd.js");

exports.isEven = function (n) {
  return n === 0 ? true : odd.isOdd(n - 1);
};
