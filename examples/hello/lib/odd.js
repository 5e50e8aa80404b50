var even = require("./even.js");

exports.isOdd = function (n) {
  return n === 0 ? false : even.isEven(n - 1);
};
